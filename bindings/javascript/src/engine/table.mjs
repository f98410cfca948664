/** Objects by words: a word is a place in the table, 0 is none. A value stands there for so many copies. */
export class Table {
  #items = [null]; #copies = [0]; #free = [];

  /** The word that the next one taken in will have. */
  next() { return this.#free.length ? this.#free[this.#free.length - 1] : this.#items.length; }

  take(item) {
    const word = this.#free.length ? this.#free.pop() : this.#items.length;
    this.#items[word] = item;
    return word;
  }

  get(word) { return this.#items[word]; }
  put(word, item) { this.#items[word] = item; }

  free(word) {
    this.#items[word] = null;
    this.#free.push(word);
  }

  /** Keeps a value under the word that was the next, for so many copies. */
  keep(value, copies) { this.#copies[this.take(value)] = copies; }

  /** One copy of a value. */
  give(word) {
    const value = this.#items[word];
    if (--this.#copies[word] === 0) this.free(word);
    return value;
  }

  all() { return this.#items.filter((it) => it !== null); }
}
