/* tc_dump.c: lets `tc qdisc show` print qdiscs that no kernel has, so that its real printing can be compared with ours.
 *
 * Preloaded (LD_PRELOAD) into tc of iproute2, it answers the request for a dump of qdiscs (RTM_GETQDISC) with the netlink messages of
 * the file that the variable TC_DUMP of the environment names. Their sequence numbers and ports become those of the request, and a
 * closing message follows. Other dumps are empty. The device with the number N is called ethN, and any device of such a name is there.
 * A socket of netlink is /dev/null, and there are no others: nothing of a kernel is asked or changed.
 *
 *     cc -shared -fPIC -O1 -o tc_dump.so tc_dump.c && TC_DUMP=messages LD_PRELOAD=./tc_dump.so tc -j qdisc show */
#define _GNU_SOURCE
#include <errno.h>
#include <linux/netlink.h>
#include <linux/rtnetlink.h>
#include <net/if.h>
#include <stdio.h>
#include <stdlib.h>
#include <string.h>
#include <sys/socket.h>
#include <unistd.h>

enum { PORT = 4711, SOCKETS = 1024, MOST = 1 << 20 };

/* What each socket of netlink answers next. */
static unsigned char *waiting[SOCKETS];
static size_t length[SOCKETS];
static unsigned char is_netlink[SOCKETS];

static int ours(int fd) { return fd >= 0 && fd < SOCKETS && is_netlink[fd]; }

int socket(int domain, int type, int protocol) {
    static const char path[] = "/dev/null";
    (void)type, (void)protocol;
    if (domain != AF_NETLINK) {
        errno = EAFNOSUPPORT;
        return -1;
    }
    FILE *file = fopen(path, "r");
    int fd = file ? dup(fileno(file)) : -1;
    if (file) fclose(file);
    if (fd >= SOCKETS) close(fd), fd = -1;
    if (fd >= 0) is_netlink[fd] = 1;
    return fd;
}

int setsockopt(int fd, int level, int name, const void *value, socklen_t size) {
    (void)level, (void)name, (void)value, (void)size;
    return ours(fd) ? 0 : -1;
}

int bind(int fd, const struct sockaddr *address, socklen_t size) {
    (void)address, (void)size;
    return ours(fd) ? 0 : -1;
}

int getsockname(int fd, struct sockaddr *address, socklen_t *size) {
    struct sockaddr_nl at = {.nl_family = AF_NETLINK, .nl_pid = PORT};
    if (!ours(fd) || *size < sizeof at) return -1;
    memcpy(address, &at, sizeof at);
    *size = sizeof at;
    return 0;
}

/* Puts an error into the answers: tc then looks the device up by if_indextoname. */
static size_t refusal(unsigned char *to, const struct nlmsghdr *asked) {
    struct nlmsghdr head = {.nlmsg_len = NLMSG_LENGTH(sizeof(struct nlmsgerr)), .nlmsg_type = NLMSG_ERROR};
    struct nlmsgerr fault = {.error = -ENODEV, .msg = *asked};
    head.nlmsg_seq = asked->nlmsg_seq;
    head.nlmsg_pid = PORT;
    memcpy(to, &head, sizeof head);
    memcpy(to + NLMSG_HDRLEN, &fault, sizeof fault);
    return head.nlmsg_len;
}

/* Puts the messages of the file into the answers, where qdiscs are asked for, and the one that closes a dump. */
static size_t dump(unsigned char *to, const struct nlmsghdr *asked) {
    const char *name = getenv("TC_DUMP");
    FILE *file = name && asked->nlmsg_type == RTM_GETQDISC ? fopen(name, "rb") : NULL;
    size_t got = file ? fread(to, 1, MOST - NLMSG_LENGTH(sizeof(int)), file) : 0, at = 0;
    if (file) fclose(file);
    struct nlmsghdr head;
    while (at + sizeof head <= got) {
        memcpy(&head, to + at, sizeof head);
        head.nlmsg_seq = asked->nlmsg_seq;
        head.nlmsg_pid = PORT;
        head.nlmsg_flags = NLM_F_MULTI;
        memcpy(to + at, &head, sizeof head);
        at += NLMSG_ALIGN(head.nlmsg_len);
    }
    memset(&head, 0, sizeof head);
    head.nlmsg_len = NLMSG_LENGTH(sizeof(int));
    head.nlmsg_type = NLMSG_DONE;
    head.nlmsg_flags = NLM_F_MULTI;
    head.nlmsg_seq = asked->nlmsg_seq;
    head.nlmsg_pid = PORT;
    memset(to + at, 0, NLMSG_LENGTH(sizeof(int)));
    memcpy(to + at, &head, sizeof head);
    return at + head.nlmsg_len;
}

static ssize_t asked(int fd, const void *octets, size_t size) {
    struct nlmsghdr head;
    if (!ours(fd) || size < sizeof head) {
        errno = EBADF;
        return -1;
    }
    memcpy(&head, octets, sizeof head);
    if (!waiting[fd]) waiting[fd] = malloc(MOST);
    if (!waiting[fd]) return -1;
    int is_dump = (head.nlmsg_flags & NLM_F_DUMP) == NLM_F_DUMP;
    length[fd] = is_dump ? dump(waiting[fd], &head) : refusal(waiting[fd], &head);
    return (ssize_t)size;
}

ssize_t send(int fd, const void *octets, size_t size, int flags) {
    (void)flags;
    return asked(fd, octets, size);
}

ssize_t sendto(int fd, const void *octets, size_t size, int flags, const struct sockaddr *to, socklen_t to_size) {
    (void)flags, (void)to, (void)to_size;
    return asked(fd, octets, size);
}

ssize_t sendmsg(int fd, const struct msghdr *message, int flags) {
    (void)flags;
    unsigned char octets[4096];
    size_t size = 0;
    for (size_t piece = 0; piece < message->msg_iovlen; piece++) {
        size_t more = message->msg_iov[piece].iov_len;
        if (more > sizeof octets - size) return -1;
        memcpy(octets + size, message->msg_iov[piece].iov_base, more);
        size += more;
    }
    return asked(fd, octets, size);
}

ssize_t recvmsg(int fd, struct msghdr *message, int flags) {
    if (!ours(fd) || !length[fd]) {
        errno = EAGAIN;
        return -1;
    }
    size_t size = length[fd], done = 0;
    for (size_t piece = 0; piece < message->msg_iovlen && done < size; piece++) {
        size_t room = message->msg_iov[piece].iov_len, part = room < size - done ? room : size - done;
        memcpy(message->msg_iov[piece].iov_base, waiting[fd] + done, part);
        done += part;
    }
    struct sockaddr_nl from = {.nl_family = AF_NETLINK};
    if (message->msg_name && message->msg_namelen >= sizeof from) memcpy(message->msg_name, &from, sizeof from);
    message->msg_namelen = sizeof from;
    message->msg_controllen = 0;
    message->msg_flags = done < size ? MSG_TRUNC : 0;
    if (!(flags & MSG_PEEK)) length[fd] = 0;
    return (ssize_t)(flags & MSG_TRUNC ? size : done);
}

char *if_indextoname(unsigned number, char name[IF_NAMESIZE]) {
    snprintf(name, IF_NAMESIZE, "eth%u", number);
    return name;
}

unsigned if_nametoindex(const char *name) {
    unsigned number = 0;
    return sscanf(name, "eth%u", &number) == 1 ? number : 0;
}
