// What the program asks of its machine, where that is a page, a worker or node: memory, words of the
// command line, files that lie in an object, standard input and output, and a clock. The functions
// are those of the C library that the program calls, by their names there. Descriptors, statuses
// and values of `errno` are those of Linux. There is one thread: another can't be made.
"use strict";

(function (root) {
  const ENOENT = 2, EBADF = 9, EAGAIN = 11, ESRCH = 3, ENOSYS = 38;
  const PAGE = 65536;
  // A program that aborts ends as by SIGABRT.
  const ABORTED = 134;

  // A heap over the module's memory. Blocks have classes of size, a power of two or one and a half of
  // it, and each class has a stack of free blocks. The 16 bytes before a block have its class.
  const CLASSES = 64, HEAD = 16, LEAST = 5;
  const SIZES = Array.from({ length: CLASSES }, (_, kind) => 2 ** (LEAST + (kind >> 1)) * (kind & 1 ? 1.5 : 1));
  // By so many pages at least the memory grows.
  const GROWTH = 256;

  class Heap {
    constructor(memory, base, most) {
      this.memory = memory;
      this.most = most;
      this.top = Math.ceil(base / HEAD) * HEAD;
      this.free = SIZES.map(() => []);
      this.look();
    }
    // (memory that has grown has another buffer)
    look() {
      this.bytes = new Uint8Array(this.memory.buffer);
      this.words = new Uint32Array(this.memory.buffer);
    }
    /** The address of a block of so many bytes, or 0. */
    take(count) {
      const wanted = count + HEAD;
      if (count > this.most) {
        return 0;
      }
      let kind = wanted <= SIZES[0] ? 0 : (31 - Math.clz32(wanted - 1) - LEAST) * 2;
      while (SIZES[kind] < wanted) {
        kind += 1;
      }
      const free = this.free[kind];
      if (free.length > 0) {
        return free.pop();
      }
      const end = this.top + SIZES[kind];
      if (end > this.most || !this.reaches(end)) {
        return 0;
      }
      const block = this.top + HEAD;
      this.top = end;
      this.words[(block - HEAD) / 4] = kind;
      return block;
    }
    /** Makes the memory reach to an address. */
    reaches(end) {
      const more = end - this.bytes.length;
      if (more <= 0) {
        return true;
      }
      try {
        this.memory.grow(Math.max(Math.ceil(more / PAGE), GROWTH));
      } catch {
        return false;
      }
      this.look();
      return true;
    }
    kindOf(block) {
      return this.words[(block - HEAD) / 4];
    }
    roomOf(block) {
      return SIZES[this.kindOf(block)] - HEAD;
    }
    give(block) {
      this.free[this.kindOf(block)].push(block);
    }
    /** The address of a block of so many bytes that has the contents of another one; that one is given back. */
    move(block, count) {
      if (count <= this.roomOf(block)) {
        return block;
      }
      const to = this.take(count);
      if (to !== 0) {
        this.bytes.copyWithin(to, block, block + this.roomOf(block));
        this.give(block);
      }
      return to;
    }
  }

  /** The program has ended with this status. */
  class Ended {
    constructor(status) {
      this.status = status;
    }
  }

  const coder = new TextEncoder();
  const bytesOf = (it) => (typeof it === "string" ? coder.encode(it) : it);

  /** Pieces of output as one. */
  function joined(pieces) {
    const all = new Uint8Array(pieces.reduce((sum, it) => sum + it.length, 0));
    let at = 0;
    for (const it of pieces) {
      all.set(it, at);
      at += it.length;
    }
    return all;
  }

  /** One run of the program: what it was given, and what it has written so far. */
  class Run {
    constructor(words, files, { stdin = "", most = 2 ** 31, hear = null }) {
      this.words = words.map(bytesOf);
      this.files = files;
      this.most = most;
      this.hear = hear;
      this.open = [{ bytes: bytesOf(stdin), at: 0 }, { pieces: [] }, { pieces: [] }];
      this.errno = 0;
      this.wantedThread = false;
    }

    // Numbers of 64 bits are BigInt at the border; addresses and lengths fit a number.
    part(at, length) {
      return this.heap.bytes.subarray(Number(at), Number(at) + Number(length));
    }

    text(at) {
      const from = Number(at);
      return new TextDecoder().decode(this.heap.bytes.slice(from, this.heap.bytes.indexOf(0, from)));
    }

    fail(errno, answer = -1) {
      this.errno = errno;
      return answer;
    }

    /** Puts what an allocation answers: whether there was memory, and where, in words of 32 bits. */
    allocated(to, block) {
      const [at, words] = [Number(to) / 4, this.heap.words];
      words[at] = block ? 1 : 0;
      words[at + 1] = 0;
      words[at + 2] = block || this.nothing;
      words[at + 3] = 0;
    }

    write(descriptor, from, length) {
      const file = this.open[descriptor];
      if (!file || !file.pieces) {
        return BigInt(this.fail(EBADF));
      }
      const piece = this.part(from, length).slice();
      file.pieces.push(piece);
      if (descriptor === 2 && this.hear) {
        this.hear(piece);
      }
      return BigInt(piece.length);
    }

    read(descriptor, to, length) {
      const file = this.open[descriptor];
      if (!file || !file.bytes) {
        return BigInt(this.fail(EBADF));
      }
      const piece = file.bytes.subarray(file.at, file.at + Number(length));
      this.part(to, piece.length).set(piece);
      file.at += piece.length;
      return BigInt(piece.length);
    }

    /** Opens a file for reading. */
    opened(path, flags) {
      const name = this.text(path);
      if ((flags & 3) !== 0 || !Object.hasOwn(this.files, name)) {
        return this.fail(ENOENT);
      }
      return this.open.push({ bytes: bytesOf(this.files[name]), at: 0 }) - 1;
    }

    /** A word of the command line. Answers its length, or -1 if there is none, or -2 if it is too long. */
    word(index, to, length) {
      const word = this.words[Number(index)];
      if (!word) {
        return -1n;
      }
      const isWhole = word.length <= Number(length);
      const piece = isWhole ? word : word.subarray(0, Number(length));
      this.part(to, piece.length).set(piece);
      return isWhole ? BigInt(word.length) : -2n;
    }

    clock(to) {
      const now = performance.now();
      const view = new DataView(this.memory.buffer);
      view.setBigInt64(Number(to), BigInt(Math.floor(now / 1000)), true);
      view.setBigInt64(Number(to) + 8, BigInt(Math.floor((now % 1000) * 1e6)), true);
      return 0;
    }

    /** The functions that the program imports. */
    calls() {
      const size = (count, align) => Number(count) || Number(align);
      return {
        rattle_alloc: (to, count, align) => this.allocated(to, this.heap.take(size(count, align))),
        rattle_realloc: (to, block, kept, count, align) => this.allocated(to, this.heap.move(Number(block), size(count, align))),
        rattle_dealloc: (block) => this.heap.give(Number(block)),
        malloc: (count) => BigInt(this.heap.take(Number(count))),
        free: (block) => { if (block) { this.heap.give(Number(block)); } },
        rattle_errno: () => this.errno,
        rattle_set_errno: (errno) => { this.errno = errno; },
        rattle_arg_count: () => BigInt(this.words.length),
        rattle_arg: (index, to, length) => this.word(index, to, length),
        open: (path, flags) => this.opened(path, flags),
        close: (descriptor) => { this.open[descriptor] = null; return 0; },
        read: (descriptor, to, length) => this.read(descriptor, to, length),
        write: (descriptor, from, length) => this.write(descriptor, from, length),
        lseek: () => BigInt(this.fail(ENOSYS)),
        // (a search shows its progress where standard error is a terminal)
        isatty: (descriptor) => (descriptor === 2 && this.hear ? 1 : 0),
        clock_gettime: (clock, to) => this.clock(to),
        _exit: (status) => { throw new Ended(status); },
        abort: () => { throw new Ended(ABORTED); },
        pthread_create: () => { this.wantedThread = true; return EAGAIN; },
        pthread_join: () => ESRCH,
        pthread_self: () => 1n,
        pthread_detach: () => 0,
        pthread_attr_init: () => 0,
        pthread_attr_destroy: () => 0,
        pthread_attr_setguardsize: () => 0,
        pthread_attr_setstacksize: () => 0,
        // (how many processors there are: one, as a page has no threads)
        sysconf: () => 1n,
        sched_getaffinity: () => this.fail(ENOSYS),
        sched_yield: () => 0,
        // (the one that is called wakes other threads)
        syscall: () => 0n,
      };
    }

    /** Runs the module, and returns its exit status. */
    play(module) {
      const { exports } = new WebAssembly.Instance(module, { env: this.imports(module) });
      this.memory = exports.memory;
      // An empty block is at the heap's base, and the heap behind it.
      this.nothing = Number(exports.__heap_base.value);
      this.heap = new Heap(this.memory, this.nothing + HEAD, this.most);
      this.heap.reaches(this.heap.top);
      try {
        return exports.start();
      } catch (it) {
        if (it instanceof Ended) {
          return it.status;
        }
        throw it;
      }
    }

    /** What the module wants. One that isn't there fails only when it is called. */
    imports(module) {
      const calls = this.calls();
      for (const { module: of, name, kind } of WebAssembly.Module.imports(module)) {
        if (of !== "env" || kind !== "function") {
          throw new Error(`the module imports ${of}.${name}, a ${kind}`);
        }
        calls[name] ||= () => {
          throw new Error(`the program calls ${name}, which a page lacks`);
        };
      }
      return calls;
    }
  }

  /**
   * Runs the program once. `words` are those of its command line, from its name on; `files` has texts
   * or bytes by name. `most` bounds its memory, in bytes. `hear` gets each piece of standard error,
   * which then counts as a terminal. Nothing is left from one run to the next.
   *
   * Returns `status`, `out` and `err` (bytes), and `wantedThread`: whether it tried to make a thread.
   */
  function run(module, words, files = {}, options = {}) {
    const one = new Run(words, files, options);
    const status = one.play(module);
    return { status, out: joined(one.open[1].pieces), err: joined(one.open[2].pieces), wantedThread: one.wantedThread };
  }

  root.rattleHost = { run };
  if (typeof module !== "undefined") {
    module.exports = { run };
  }
})(globalThis);
