// Where the parts of the port's pictures lie, in pixels.

export const LEFT = 64; // where time begins
export const RIGHT = 32; // what lies behind its end
export const TOP = 58; // the top of the row of class 7
export const STEP = 36; // from one row to the next
export const ROW = 28; // the height of a row
export const BOTTOM = TOP + 9 * STEP; // below the row of the wire

/** The place of the row at a height, from the top: eight classes, and the wire. */
export const placeOfRow = (y) => Math.floor((y - TOP + 4) / STEP);
