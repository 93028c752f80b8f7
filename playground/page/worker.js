// Runs commands of `ets`, each on what the one before it printed. It is called with a compiled module, and then with {id, commands, text, files}: it
// answers {id, done, took}, where `done` has what each command did, as far as the commands ended with status 0. `files` has the text of each file
// by its name.

let compiled;

// One command: its exit status, and the bytes of both streams. `trap` says why it ended, where that was no exit. `files` has the bytes of each file
// by its name, and null for a folder.
function runCommand(module, words, input, files = {}) {
  const given = ['ets', ...words].map((it) => typeof it === 'string' ? new TextEncoder().encode(it) : it);
  const streams = [[], []], ended = {};
  const open = [{ it: input, at: 0 }, null, null];  // standard input, and the files that are open
  let status = -1, trap = null, memory = null;
  const bytes = (place, length) => new Uint8Array(memory.buffer, place >>> 0, length >>> 0);
  const host = {
    word(number, place, room) {
      const it = given[number];
      if (it === undefined) return -1;
      if (it.length > room >>> 0) return -2;
      bytes(place, it.length).set(it);
      return it.length;
    },
    open(name) {
      const all = new Uint8Array(memory.buffer), from = name >>> 0, given = new TextDecoder().decode(all.slice(from, all.indexOf(0, from))), it = files[given];
      if (it !== undefined) return open.push({ it, at: 0 }) - 1;
      return Object.keys(files).some((other) => files[other] && given.startsWith(other + '/')) ? -20 : -2;
    },
    close(number) {
      open[number] = null;
    },
    read(number, place, room) {
      const from = open[number];
      if (!from) return -9;
      if (from.it === null) return -21;
      const piece = from.it.subarray(from.at, from.at + (room >>> 0));
      bytes(place, piece.length).set(piece);
      from.at += piece.length;
      return piece.length;
    },
    write(to, place, length) {
      if (to !== 1 && to !== 2) return -9;
      streams[to - 1].push(bytes(place, length).slice());
      return length;
    },
    exit(number) {
      status = number;
      throw ended;
    },
  };
  const instance = new WebAssembly.Instance(module, { host });
  memory = instance.exports.memory;
  try {
    status = instance.exports.run();
  } catch (it) {
    if (it !== ended) trap = String(it);
  }
  return { status, trap, out: joined(streams[0]), err: joined(streams[1]) };
}

function joined(pieces) {
  const whole = new Uint8Array(pieces.reduce((length, it) => length + it.length, 0));
  let at = 0;
  for (const it of pieces) {
    whole.set(it, at);
    at += it.length;
  }
  return whole;
}

onmessage = ({ data }) => {
  if (data instanceof WebAssembly.Module) {
    compiled = data;
    return;
  }
  const begun = performance.now(), done = [], text = new TextDecoder();
  const files = Object.fromEntries(Object.entries(data.files ?? {}).map(([name, it]) => [name, new TextEncoder().encode(it)]));
  let input = new TextEncoder().encode(data.text ?? '');
  for (const words of data.commands) {
    const { status, trap, out, err } = runCommand(compiled, words, input, files);
    done.push({ words, status, trap, out: text.decode(out), err: text.decode(err) });
    input = out;
    if (status !== 0) break;
  }
  postMessage({ id: data.id, done, took: performance.now() - begun });
};
