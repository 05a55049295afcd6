// Lowers a WebAssembly module with a 64-bit memory and 64-bit tables to one with 32-bit ones, which
// every browser and node run: node viewer/engine/lower.js WIDE.wasm NARROW.wasm
//
// Addresses stay 64-bit numbers in locals and on the stack, and are cut to 32 bits where memory or a
// table is touched. That is right as long as each address is below 4 GiB, which a memory of 32 bits
// bounds. (A wild address would trap in a 64-bit memory, and may touch some byte here. The programs
// that are lowered are proved to have none.) Only the instructions that the toolchain's clang
// writes are known; all others are refused.
"use strict";

(function (root) {
  // Value types, as bytes of the binary format (WebAssembly 3.0, section 5.3.1).
  const [I32, I64, F32, F64] = [0x7f, 0x7e, 0x7d, 0x7c];
  // Sections (section 5.5.2).
  const [TYPES, IMPORTS, FUNCTIONS, TABLES, MEMORIES, ELEMENTS, CODE, DATA] = [1, 2, 3, 4, 5, 9, 10, 11];
  // Instructions (section 5.4) that are written or looked at.
  const END = 0x0b, BR_TABLE = 0x0e, CALL_INDIRECT = 0x11, GET = 0x20, SET = 0x21;
  const I32_CONST = 0x41, I64_CONST = 0x42, F32_CONST = 0x43, F64_CONST = 0x44;
  const FIRST_ACCESS = 0x28, LAST_ACCESS = 0x3e, MEMORY_SIZE = 0x3f, MEMORY_GROW = 0x40;
  const WRAP = 0xa7, EXTEND_SIGNED = 0xac, EXTEND_UNSIGNED = 0xad;
  const LONGER = 0xfc, LAST_TRUNCATION = 7, COPY = 10, FILL = 11;
  // What a store takes from the stack above its address.
  const STORED = { 0x36: I32, 0x37: I64, 0x38: F32, 0x39: F64, 0x3a: I32, 0x3b: I32, 0x3c: I64, 0x3d: I64, 0x3e: I64 };
  const MOST_PAGES = 65536;
  // A limit's flags: bit 0 says that there is a greatest size, bit 2 that addresses have 64 bits.
  const HAS_MOST = 1, IS_WIDE = 4;

  /** Bytes that are written one behind another. */
  class Writer {
    constructor(room) {
      this.bytes = new Uint8Array(room);
      this.at = 0;
    }
    fit(more) {
      if (this.at + more > this.bytes.length) {
        const next = new Uint8Array(Math.max(this.bytes.length * 2, this.at + more));
        next.set(this.bytes.subarray(0, this.at));
        this.bytes = next;
      }
    }
    put(...bytes) {
      this.fit(bytes.length);
      for (const it of bytes) {
        this.bytes[this.at++] = it;
      }
    }
    copy(from, start, end) {
      this.fit(end - start);
      this.bytes.set(from.subarray(start, end), this.at);
      this.at += end - start;
    }
    /** An unsigned number as LEB128. */
    unsigned(number) {
      do {
        const low = number % 128;
        number = Math.floor(number / 128);
        this.put(number ? low | 128 : low);
      } while (number);
    }
    /** A signed one, a BigInt. */
    signed(number) {
      for (;;) {
        const low = Number(number & 127n);
        number >>= 7n;
        if ((number === 0n && !(low & 64)) || (number === -1n && low & 64)) {
          this.put(low);
          return;
        }
        this.put(low | 128);
      }
    }
    /** An instruction with an index. */
    indexed(instruction, index) {
      this.put(instruction);
      this.unsigned(index);
    }
    whole() {
      return this.bytes.subarray(0, this.at);
    }
  }

  /** A module that is read from front to back, and its lowered form. */
  class Lowering {
    constructor(bytes) {
      this.bytes = bytes;
      this.at = 8;
      // of each type how many parameters it has, and of each function its type
      this.parameters = [];
      this.types = [];
    }

    refuse(why) {
      throw new Error(`lower: ${why} at byte ${this.at}`);
    }

    unsigned() {
      let [number, weight, byte] = [0, 1, 0];
      do {
        byte = this.bytes[this.at++];
        number += (byte & 127) * weight;
        weight *= 128;
      } while (byte & 128);
      return number;
    }

    signed() {
      let [number, shift, byte] = [0n, 0n, 0];
      do {
        byte = this.bytes[this.at++];
        number |= BigInt(byte & 127) << shift;
        shift += 7n;
      } while (byte & 128);
      return byte & 64 ? number - (1n << shift) : number;
    }

    /** Passes a number. */
    skip() {
      while (this.bytes[this.at++] & 128);
    }

    /** Passes a name. */
    skipName() {
      const length = this.unsigned();
      this.at += length;
    }

    /** Does something for each item of a vector that is copied item by item. */
    each(to, what) {
      const count = this.unsigned();
      to.unsigned(count);
      for (let index = 0; index < count; index += 1) {
        what(index);
      }
    }

    module() {
      const out = new Writer(Math.ceil(this.bytes.length * 1.3));
      out.copy(this.bytes, 0, 8);
      while (this.at < this.bytes.length) {
        const id = this.bytes[this.at++];
        const size = this.unsigned();
        const end = this.at + size;
        const section = this.section(id, end);
        this.at = end;
        out.indexed(id, section.length);
        out.copy(section, 0, section.length);
      }
      return out.whole();
    }

    section(id, end) {
      const start = this.at;
      const to = new Writer(Math.ceil((end - start) * 1.4) + 64);
      switch (id) {
        case TABLES: this.each(to, () => { to.put(this.bytes[this.at++]); this.limits(to); }); break;
        case MEMORIES: this.each(to, () => this.limits(to)); break;
        case ELEMENTS: this.each(to, () => this.elements(to)); break;
        case DATA: this.each(to, () => this.data(to)); break;
        case CODE: this.each(to, (index) => this.body(to, this.parameters[this.types[index]])); break;
        default:
          if (id === TYPES) {
            this.readTypes();
          } else if (id === IMPORTS) {
            this.readImports();
          } else if (id === FUNCTIONS) {
            for (let count = this.unsigned(); count > 0; count -= 1) {
              this.types.push(this.unsigned());
            }
          }
          to.copy(this.bytes, start, end);
      }
      return to.whole();
    }

    readTypes() {
      for (let count = this.unsigned(); count > 0; count -= 1) {
        if (this.bytes[this.at++] !== 0x60) {
          this.refuse("a type that is no function's");
        }
        const parameters = this.unsigned();
        this.parameters.push(parameters);
        this.at += parameters;
        this.skipName(); // (the results have the form of a name)
      }
    }

    readImports() {
      for (let count = this.unsigned(); count > 0; count -= 1) {
        this.skipName();
        this.skipName();
        if (this.bytes[this.at++] !== 0) {
          this.refuse("an import that is no function");
        }
        this.skip();
      }
    }

    limits(to) {
      const flags = this.bytes[this.at++];
      to.put(flags & ~IS_WIDE);
      to.unsigned(this.unsigned());
      if (flags & HAS_MOST) {
        to.unsigned(Math.min(this.unsigned(), MOST_PAGES));
      }
    }

    /** Where a segment begins: a constant, then END. */
    offset(to) {
      const constant = this.bytes[this.at++];
      if (constant !== I64_CONST && constant !== I32_CONST) {
        this.refuse(`an offset by instruction ${constant}`);
      }
      to.put(I32_CONST);
      to.signed(BigInt.asIntN(32, this.signed()));
      if (this.bytes[this.at++] !== END) {
        this.refuse("an offset of several instructions");
      }
      to.put(END);
    }

    elements(to) {
      if (this.unsigned() !== 0) {
        this.refuse("an element segment of another form");
      }
      to.unsigned(0);
      this.offset(to);
      this.each(to, () => to.unsigned(this.unsigned()));
    }

    data(to) {
      if (this.unsigned() !== 0) {
        this.refuse("a data segment of another form");
      }
      to.unsigned(0);
      this.offset(to);
      const length = this.unsigned();
      to.unsigned(length);
      to.copy(this.bytes, this.at, this.at + length);
      this.at += length;
    }

    /** A function with so many parameters. */
    body(out, parameters) {
      const size = this.unsigned();
      const end = this.at + size;
      const to = new Writer(Math.ceil((end - this.at) * 1.5) + 32);
      const locals = new Locals(parameters);
      for (let count = this.unsigned(); count > 0; count -= 1) {
        const many = this.unsigned();
        locals.declare(many, this.bytes[this.at++]);
      }
      // What needs no change is copied in long pieces: `from` is where the next one begins.
      let from = this.at;
      while (this.at < end) {
        const start = this.at;
        const instruction = this.bytes[this.at++];
        if (!this.passes(instruction)) {
          to.copy(this.bytes, from, start);
          from = start;
          from = this.changed(instruction, to, locals, from);
        }
      }
      to.copy(this.bytes, from, end);
      const head = locals.written();
      out.unsigned(head.length + to.at);
      out.copy(head, 0, head.length);
      out.copy(to.bytes, 0, to.at);
    }

    /** Passes an instruction that touches neither memory nor a table, if it is one. */
    passes(instruction) {
      const isBare = (instruction >= 0x45 && instruction <= 0xc4) || [0x00, 0x01, 0x05, END, 0x0f, 0x1a, 0x1b].includes(instruction);
      const hasNumber = (instruction >= 0x02 && instruction <= 0x04) || [0x0c, 0x0d, 0x10].includes(instruction)
        || (instruction >= 0x20 && instruction <= 0x24) || instruction === I32_CONST || instruction === I64_CONST;
      if (hasNumber) {
        this.skip();
      } else if (instruction === BR_TABLE) {
        for (let count = this.unsigned(); count >= 0; count -= 1) {
          this.skip();
        }
      } else if (instruction === F32_CONST) {
        this.at += 4;
      } else if (instruction === F64_CONST) {
        this.at += 8;
      } else {
        return isBare;
      }
      return true;
    }

    /** Writes what stands for an instruction. Returns from where on bytes are copied behind it. */
    changed(instruction, to, locals, from) {
      if (instruction === CALL_INDIRECT) {
        to.put(WRAP);
        this.skip();
        this.skip();
        return from;
      }
      if (instruction >= FIRST_ACCESS && instruction <= LAST_ACCESS) {
        return this.access(instruction, to, locals);
      }
      if (instruction === MEMORY_SIZE || instruction === MEMORY_GROW) {
        const grows = instruction === MEMORY_GROW;
        this.skip();
        to.put(...(grows ? [WRAP] : []), instruction, 0, grows ? EXTEND_SIGNED : EXTEND_UNSIGNED);
        return this.at;
      }
      const longer = instruction === LONGER ? this.unsigned() : -1;
      if (longer === COPY) {
        this.skip();
        this.skip();
        const [length, source] = [locals.spare(I64, "length"), locals.spare(I64, "source")];
        to.indexed(SET, length);
        to.indexed(SET, source);
        to.put(WRAP);
        to.indexed(GET, source);
        to.put(WRAP);
        to.indexed(GET, length);
        to.put(WRAP);
      } else if (longer === FILL) {
        this.skip();
        const [length, value] = [locals.spare(I64, "length"), locals.spare(I32, "value")];
        to.indexed(SET, length);
        to.indexed(SET, value);
        to.put(WRAP);
        to.indexed(GET, value);
        to.indexed(GET, length);
        to.put(WRAP);
      } else if (longer < 0 || longer > LAST_TRUNCATION) {
        this.refuse(`instruction ${instruction}${longer < 0 ? "" : ` ${longer}`}`);
      }
      return from;
    }

    /** A load or a store: the address lies below what is stored. */
    access(instruction, to, locals) {
      const [align, offset] = [this.unsigned(), this.unsigned()];
      if (align > 63 || offset > 0xffffffff) {
        this.refuse(`an access with offset ${offset}`);
      }
      const kind = STORED[instruction];
      if (kind === undefined) {
        to.put(WRAP);
      } else {
        const value = locals.spare(kind, `value ${kind}`);
        to.indexed(SET, value);
        to.put(WRAP);
        to.indexed(GET, value);
      }
      to.indexed(instruction, align);
      to.unsigned(offset);
      return this.at;
    }
  }

  /** The locals of a function, with spare ones behind its own. */
  class Locals {
    constructor(parameters) {
      this.count = parameters;
      this.declared = [];
      this.spares = new Map();
    }
    declare(many, kind) {
      this.declared.push([many, kind]);
      this.count += many;
    }
    spare(kind, name) {
      if (!this.spares.has(name)) {
        this.spares.set(name, this.count);
        this.declare(1, kind);
      }
      return this.spares.get(name);
    }
    written() {
      const to = new Writer(64);
      to.unsigned(this.declared.length);
      for (const [many, kind] of this.declared) {
        to.unsigned(many);
        to.put(kind);
      }
      return to.whole();
    }
  }

  /** The lowered form of a module, both as bytes. */
  const lower = (bytes) => new Lowering(bytes).module();

  root.wasmLower = { lower };
  if (typeof module !== "undefined") {
    module.exports = { lower };
    if (require.main === module) {
      const fs = require("fs");
      const [from, to] = process.argv.slice(2);
      fs.writeFileSync(to, lower(fs.readFileSync(from)));
    }
  }
})(globalThis);
