// One call of the program, with files that lie in memory: the functions of its host, and nothing else of the world.

const GRANTED = 1n, NOT_GRANTED = 0n;
const NO_SUCH_FILE = 2, BAD_FILE = 9;
const REASONS = { [NO_SUCH_FILE]: "No such file or directory", [BAD_FILE]: "Bad file descriptor" };
const PAGE = 65536;
const STATX_BYTES = 256, STATX_KIND = 3, STATX_SIZE = 0x200, REGULAR_FILE = 0o100644;

// The memory that the program is granted, by size classes; what it gives back is granted again.
class Grants {
  constructor(memory, first) { this.memory = memory; this.top = first; this.sizes = new Map(); this.free = new Map(); }

  // The place of `bytes` bytes, or null if the engine grants no more.
  place(bytes, alignment) {
    let size = 16;
    while (size < bytes) size *= 2;
    const kept = this.free.get(size);
    if (kept?.length && alignment <= 16) return this.given(kept.pop(), size);
    const at = Math.ceil(this.top / Math.max(16, alignment)) * Math.max(16, alignment);
    if (!this.reach(at + size)) return null;
    this.top = at + size;
    return this.given(at, size);
  }

  given(at, size) { this.sizes.set(at, size); return at; }

  reach(end) {
    const missing = end - this.memory.buffer.byteLength;
    if (missing <= 0) return true;
    const pages = Math.max(256, Math.ceil(missing / PAGE));
    return this.grow(BigInt(pages)) || this.grow(pages);
  }

  // engines of before the standard was agreed take a Number
  grow(pages) {
    try { this.memory.grow(pages); return true; } catch { return false; }
  }

  release(at) {
    const size = this.sizes.get(at);
    if (size === undefined) return;
    this.sizes.delete(at);
    if (!this.free.has(size)) this.free.set(size, []);
    this.free.get(size).push(at);
  }
}

// Joins chunks of bytes.
export function joined(chunks) {
  const whole = new Uint8Array(chunks.reduce((sum, chunk) => sum + chunk.length, 0));
  let at = 0;
  for (const chunk of chunks) { whole.set(chunk, at); at += chunk.length; }
  return whole;
}

// What one call has of the world: its arguments, its files, what it has written.
class Host {
  constructor(words, files, input, take) {
    const encoder = new TextEncoder();
    Object.assign(this, { files, take, errno: 0, nextFile: 3, output: [], errors: [] });
    this.words = words.map(word => encoder.encode(word));
    this.open = new Map([[0, { bytes: input, at: 0 }]]);
  }

  // once the module is there: its memory, and what of that is granted
  enter(exports) {
    this.memory = exports.memory;
    this.grants = new Grants(this.memory, Number(exports.__heap_base.value));
  }

  bytes(at, count) { return new Uint8Array(this.memory.buffer, Number(at), Number(count)); }
  fault(number) { this.errno = number; return -1; }
  file(path) { return Object.hasOwn(this.files, path) ? this.files[path] : null; }

  // a text that ends in a zero
  name(at) {
    const all = new Uint8Array(this.memory.buffer), first = Number(at);
    return new TextDecoder().decode(all.slice(first, all.indexOf(0, first)));
  }

  // whether memory is granted, and its place
  answer(to, at) {
    const view = new DataView(this.memory.buffer);
    view.setBigUint64(Number(to), at === null ? NOT_GRANTED : GRANTED, true);
    view.setBigUint64(Number(to) + 8, BigInt(at ?? 16), true);
  }

  get memoryFunctions() {
    return {
      rattle_alloc: (to, count, alignment) => this.answer(to, this.grants.place(Number(count), Number(alignment))),
      rattle_realloc: (to, from, kept, count, alignment) => {
        const at = this.grants.place(Number(count), Number(alignment));
        if (at !== null) {
          new Uint8Array(this.memory.buffer).copyWithin(at, Number(from), Number(from) + Number(kept));
          this.grants.release(Number(from));
        }
        this.answer(to, at);
      },
      rattle_dealloc: at => this.grants.release(Number(at)),
    };
  }

  get surroundings() {
    return {
      // -1: there is no such argument; -2: it is longer than its place
      rattle_arg: (index, to, count) => {
        const word = this.words[Number(index)];
        if (word === undefined) return -1n;
        this.bytes(to, count).set(word.subarray(0, Number(count)));
        return word.length > Number(count) ? -2n : BigInt(word.length);
      },
      rattle_errno: () => this.errno,
      rattle_set_errno: number => { this.errno = number; },
      rattle_env: () => -1n,
      rattle_env_at: () => -1n,
      isatty: () => 0,
      __sysv_signal: () => 0n,
      __xpg_strerror_r: (number, to, count) => {
        const text = new TextEncoder().encode(REASONS[number] ?? `error ${number}`).subarray(0, Number(count) - 1);
        this.bytes(to, text.length + 1).set([...text, 0]);
        return 0;
      },
    };
  }

  get fileFunctions() {
    const write = (file, at, count) => this.write(file, this.bytes(at, count).slice());
    return {
      write, __write: write,
      read: (file, to, count) => {
        const from = this.open.get(file);
        if (!from) return BigInt(this.fault(BAD_FILE));
        const chunk = from.bytes.subarray(from.at, from.at + Number(count));
        this.bytes(to, chunk.length).set(chunk);
        from.at += chunk.length;
        return BigInt(chunk.length);
      },
      open: at => {
        const found = this.file(this.name(at));
        if (!found) return this.fault(NO_SUCH_FILE);
        this.open.set(this.nextFile, { bytes: found, at: 0 });
        return this.nextFile++;
      },
      close: file => this.open.delete(file) ? 0 : this.fault(BAD_FILE),
      statx: (file, at, flags, mask, to) => {
        const path = this.name(at), found = path ? this.file(path) : this.open.get(file)?.bytes;
        return found ? this.describe(found, to) : this.fault(path ? NO_SUCH_FILE : BAD_FILE);
      },
    };
  }

  write(file, chunk) {
    if (file !== 1) this.errors.push(chunk);
    else if (this.take) this.take(chunk);
    else this.output.push(chunk);
    return BigInt(chunk.length);
  }

  // the kind and the size of a file, at the places that Linux gives them
  describe(found, to) {
    this.bytes(to, STATX_BYTES).fill(0);
    const view = new DataView(this.memory.buffer, Number(to));
    view.setUint32(0, STATX_KIND | STATX_SIZE, true);
    view.setUint16(28, REGULAR_FILE, true);
    view.setBigUint64(40, BigInt(found.length), true);
    return 0;
  }
}

// Calls the program: `words` are its arguments, `files` maps names to bytes, `input` is standard input. `take`, if there is one, gets each
// chunk of standard output as it is written; `called` is the name by which the program is called. Gives the status and the bytes of both
// outputs.
export function callProgram(module, words, files, input = new Uint8Array(), take = null, called = "narbeddo") {
  const host = new Host([called, ...words], files, input, take);
  const instance = new WebAssembly.Instance(module, { env: { ...host.memoryFunctions, ...host.surroundings, ...host.fileFunctions } });
  host.enter(instance.exports);
  const status = instance.exports.main(0, 0n);
  return { status, output: joined(host.output), errors: joined(host.errors) };
}
