// Rows that were asked for, in blocks. While the list is moved fast, only what is to be seen in the end is asked for.

const BLOCK = 128;
const MOST_BLOCKS = 48;
const AT_ONCE = 2;

export class RowCache {
  constructor(held, rows, arrived) {
    this.held = held;
    this.rows = rows;
    this.arrived = arrived;
    this.blocks = new Map();
    this.asked = new Set();
    this.wanted = [0, 0];
  }

  // The row, or null if it is not here yet.
  at(index) {
    const block = this.blocks.get(Math.floor(index / BLOCK));
    return block ? block[index % BLOCK] || null : null;
  }

  want(from, to) {
    this.wanted = [Math.floor(from / BLOCK), Math.floor((to - 1) / BLOCK)];
    this.ask();
  }

  ask() {
    for (let block = this.wanted[0]; block <= this.wanted[1] && this.asked.size < AT_ONCE; block += 1) {
      if (!this.blocks.has(block) && !this.asked.has(block)) this.fetch(block);
    }
  }

  fetch(block) {
    this.asked.add(block);
    this.held.rows(block * BLOCK, BLOCK).then((rows) => {
      this.asked.delete(block);
      this.blocks.set(block, rows);
      if (this.blocks.size > MOST_BLOCKS) this.blocks.delete(this.blocks.keys().next().value);
      this.arrived(block * BLOCK, block * BLOCK + rows.length);
      this.ask();
    });
  }
}
