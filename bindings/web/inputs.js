// One's own inputs, which the browser keeps: the last ten, each with its name and its date.

const MOST_INPUTS = 10; // inputs that are kept
const MOST_SIZE = 50_000_000; // characters and octets of all of them

/** Why an input is not kept. */
export class NotKept extends Error {}

const answerOf = (request) =>
  new Promise((resolve, reject) => {
    request.onsuccess = () => resolve(request.result);
    request.onerror = () => reject(request.error);
  });

const endOfTransaction = (transaction) =>
  new Promise((resolve, reject) => {
    transaction.oncomplete = () => resolve();
    transaction.onabort = () => reject(transaction.error ?? new Error("it was broken off"));
  });

function openDatabase() {
  const request = indexedDB.open("taprio", 1);
  request.onupgradeneeded = () => {
    request.result.createObjectStore("list", { keyPath: "id", autoIncrement: true });
    request.result.createObjectStore("states");
  };
  return answerOf(request);
}

const sizeOfState = ({ text, beside, other, octets }) => [text, beside, other, octets].reduce((sum, it) => sum + (it ?? "").length, 0);
const newestFirst = (list) => list.sort((a, b) => b.date - a.date);

/** The first words of a text, as the name of an input. */
export function nameOf(text) {
  const line = text.split("\n", 50).find((it) => it.replace(/^[\s#]+/, "") !== "") ?? "";
  return line.replace(/^[\s#]+/, "").slice(0, 40).trim() || "nothing";
}

/** What is kept. Each call is rejected with `NotKept` where the browser keeps nothing. */
export class Inputs {
  #database = null;

  // A transaction over what is listed of the inputs, and over their states.
  async #begin(mode) {
    try {
      this.#database ??= await openDatabase();
      const transaction = this.#database.transaction(["list", "states"], mode);
      return { list: transaction.objectStore("list"), states: transaction.objectStore("states"), end: endOfTransaction(transaction) };
    } catch (error) {
      this.#database = null;
      throw new NotKept(`this browser keeps nothing for this page (${error?.message || error})`);
    }
  }

  /** @returns {Promise<{id: number, name: string, date: number, size: number, stamp: string}[]>} the newest first */
  async all() {
    const { list } = await this.#begin("readonly");
    return newestFirst(await answerOf(list.getAll()));
  }

  /** The state of an input, or undefined where it is no longer kept. */
  async state(id) {
    const { states } = await this.#begin("readonly");
    return answerOf(states.get(id));
  }

  /**
   * Keeps a state under an id. It gets a new one where it has none, where that input was deleted, and where it was changed elsewhere since:
   * two windows with one input do not overwrite each other.
   *
   * @param {{id?: number, stamp?: string}} entry gets the id and the stamp
   * @param {object} state
   * @param {string | null} name null: by its text, unless it has a name that was given
   */
  async put(entry, state, name) {
    const size = sizeOfState(state);
    if (size > MOST_SIZE) throw new NotKept("it is longer than the 50 MB that are kept");
    const { list, states, end } = await this.#begin("readwrite");
    end.catch(() => {}); // (it is told below)
    try {
      const old = entry.id === undefined ? undefined : await answerOf(list.get(entry.id));
      const same = old !== undefined && old.stamp === entry.stamp;
      const stamp = `${Date.now()} ${Math.random()}`;
      const given = same && old.named ? old.name : name;
      const told = { name: given ?? nameOf(state.text), named: given !== null, date: Date.now(), size, stamp };
      const id = await answerOf(list.put(same ? { ...told, id: old.id } : told));
      states.put(state, id);
      await this.#trim(list, states, id);
      await end;
      Object.assign(entry, { id, stamp });
    } catch (error) {
      throw new NotKept(`this browser refuses it (${error?.message || error})`);
    }
  }

  // Drops the oldest beyond the limits, but never this one.
  async #trim(list, states, kept) {
    let size = 0;
    newestFirst(await answerOf(list.getAll())).forEach((it, place) => {
      size += it.size;
      if (it.id === kept || (place < MOST_INPUTS && size <= MOST_SIZE)) return;
      list.delete(it.id);
      states.delete(it.id);
    });
  }

  /** Gives an input a name of one's own. */
  async rename(id, name) {
    const { list, end } = await this.#begin("readwrite");
    const old = await answerOf(list.get(id));
    if (old) list.put({ ...old, name, named: true });
    await end;
  }

  async remove(id) {
    const { list, states, end } = await this.#begin("readwrite");
    list.delete(id);
    states.delete(id);
    await end;
  }
}
