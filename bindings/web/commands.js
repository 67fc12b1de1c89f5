// Which lines of a text are schedule commands, and what was told of them.

const LISTED = 20; // how many are told of

// Where a word stands at the beginning of a line of a text, or behind blanks there. (Texts are long, and such words are rare.)
function* beginningsOf(text, word, blanks = "") {
  for (let at = text.indexOf(word); at >= 0; at = text.indexOf(word, at + word.length)) {
    let begin = at;
    while (begin > 0 && blanks.includes(text[begin - 1])) begin -= 1;
    if (begin === 0 || text[begin - 1] === "\n") yield { begin, end: at + word.length };
  }
}

/**
 * The numbers of the physical lines at which schedule commands begin.
 *
 * @param {string} text
 */
export function commandLines(text) {
  const found = [];
  let [number, counted] = [1, 0];
  for (const { begin, end } of beginningsOf(text, "tc", " \t\r")) {
    const isWord = /^(?:[ \t\r\n]|\\\r?(?:\n|$)|$)/.test(text.slice(end, end + 3));
    if (!isWord || /\\\r?\n$/.test(text.slice(Math.max(0, begin - 3), begin))) continue;
    for (let at = text.indexOf("\n", counted); at >= 0 && at < begin; at = text.indexOf("\n", at + 1)) [number, counted] = [number + 1, at + 1];
    found.push(number);
  }
  return found;
}

const TOLD = ["installed", "refused", "tc-fault", "apart"];

// What was answered to the schedule commands, in their order.
function toldOf(answers) {
  const places = TOLD.flatMap((word) => [...beginningsOf(answers, word)]).sort((one, other) => one.begin - other.begin);
  return places.map(({ begin }) => {
    const end = answers.indexOf("\n", begin);
    return answers.slice(begin, end < 0 ? undefined : end);
  });
}

/**
 * The schedule commands that weren't taken, each with its line and what was answered: a command has one answer, and they come in
 * the order of the commands.
 *
 * @param {string} text the script or the schedules
 * @param {string} answers
 * @returns {{line: number, answer: string}[]} at most twenty
 */
export function refusedCommands(text, answers) {
  const lines = commandLines(text);
  const all = toldOf(answers).map((answer, place) => ({ line: lines[place], answer }));
  return all.filter(({ line, answer }) => line && !/^(?:installed|apart)/.test(answer)).slice(0, LISTED);
}
