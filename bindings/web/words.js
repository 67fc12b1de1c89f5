// Words of numbers.

/** A number and the word for what is counted. */
export const count = (number, word) => `${number.toLocaleString("en")} ${word}${number === 1 ? "" : "s"}`;
