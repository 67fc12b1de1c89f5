// The examples as a story, each with a sentence.

/** The steps in their order: the example's name, its title and its sentence. */
export const STEPS = [
  ["first.script", "One frame", "A frame arrives at an idle port and leaves at once: 672 ns for 60 octets at 1 Gb/s."],
  ["priorities.script", "Priorities", "Two frames arrive at one moment: the higher class goes first."],
  ["guard_band.script", "A guard band", "A long frame does not start where it would run into another class's window. No guard band has to be given."],
  ["schedule.script", "Why a frame waits", "The window is open, and the long frame waits all the same: it would not end in time. The short one goes."],
  ["extension.script", "A schedule change", "A new schedule comes into force at a cycle's start, and the old one's last state is held up to it."],
  ["windows.schedules", "Windows", "Without any frame: how long each class is open and closed, and the longest frame that can ever start."],
  ["planned.streams", "Streams", "A table of periodic streams becomes a script, which is run and drawn."],
  ["drive.bounds", "A deadline that holds for ever", "Not for a run: for ever, whatever the other classes send. Each stream against its deadline."],
  ["drive_short.bounds", "One that fails after 63 ms", "A window a little too short. A run of 60 ms shows nothing of it; the first frame that is lost is told."],
  ["line.paths", "Through three switches", "From talker to listener, for ever: each switch has its own schedule, and begins its cycle a little later than the one before."],
  ["drive.plan", "A schedule is found", "Only the streams are given, with their deadlines. Open the schedule with them, and move its windows by hand: it is judged at each step."],
  ["line.plan", "One for each switch", "The same for a network: a schedule for each port, each with its part of every deadline."],
  ["machine.pcap", "A capture", "Recorded frames through a schedule: when does each leave? The capture of what leaves can be saved."],
];
