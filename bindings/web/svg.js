// Elements of pictures.

const SPACE = "http://www.w3.org/2000/svg";

/** A new element of a picture. */
export function element(name, attributes = {}, text = undefined) {
  const made = document.createElementNS(SPACE, name);
  for (const [key, value] of Object.entries(attributes)) made.setAttribute(key, value);
  if (text !== undefined) made.textContent = text;
  return made;
}
