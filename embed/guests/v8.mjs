// The same guests under V8, in one store, with their memories lent:
//
//     node v8.mjs ADDON FOLDER BYTES
//     node --disable-wasm-trap-handler v8.mjs ADDON FOLDER BYTES moving
//
// FOLDER has the modules. The first runs what main.c, grows.c and samples.c run. In the second there are no addresses
// for all to which memories may grow, so that they move as they do.
import { execFileSync } from "node:child_process";
import { readFileSync } from "node:fs";
import { createRequire } from "node:module";

const [addon, folder, bytes, moving] = process.argv.slice(2);
const size = Number(bytes);
const strm = createRequire(import.meta.url)(addon);

function must(holds, what) {
  if (!holds) throw new Error(what);
}

// GUESTS

const modules = new Map();

function moduleOf(name) {
  if (!modules.has(name)) modules.set(name, new WebAssembly.Module(readFileSync(`${folder}/${name}.wasm`)));
  return modules.get(name);
}

const builtins = new Map();

function builtinOf(name) {
  if (!builtins.has(name)) builtins.set(name, strm.builtin(name));
  return builtins.get(name);
}

class Guest {
  // Of a module by its name, which imports from canon alone. Its memory is lent once its instance is made, so a start
  // function that calls a built-in traps.
  constructor(name) {
    const module = moduleOf(name);
    const at = (this.at = strm.add());
    const canon = {};
    for (const wanted of WebAssembly.Module.imports(module)) {
      const builtin = builtinOf(wanted.name);
      canon[wanted.name] = (a, b, c) => strm.call(at, builtin, a, b, c);
    }
    this.exports = new WebAssembly.Instance(module, { canon }).exports;
    const { run, callback, memory } = this.exports;
    strm.begin(at, run, callback, memory);
  }

  get state() {
    return strm.state(this.at);
  }

  // An unsigned word that a function answers.
  ask(name) {
    return this.exports[name]() >>> 0;
  }

  start(read, write, size) {
    strm.start(this.at, read, write, size);
  }

  turn() {
    return strm.turn(this.at);
  }

  // Calls a function by its name: whether it came back.
  enter(name, ...words) {
    return strm.enter(this.at, this.exports[name], ...words);
  }

  giveUp() {
    strm.giveUp(this.at);
    this.exports = null;
  }
}

function between(writer, reader, type) {
  const [stream, read, write] = strm.between(writer.at, reader.at, type);
  return { stream, read, write };
}

// Gives a guest all its turns: it ends with them.
function runOut(guest) {
  while (guest.turn()) continue;
  must(guest.state === "ended", "a reader waits");
}

// LINES

class Line {
  constructor(names, size) {
    this.size = size;
    const [source, filter, sink] = (this.guests = names.map((name) => new Guest(name)));
    const first = between(source, filter, "stream<u8>");
    const second = between(filter, sink, "stream<u8>");
    this.streams = [first.stream, second.stream];
    source.start(0, first.write, size);
    filter.start(first.read, second.write, size);
    sink.start(second.read, 0, size);
  }

  get isOver() {
    return this.guests.every(({ state }) => state !== "runs");
  }

  // So many rounds of turns at most; whether all are over.
  turns(rounds = Infinity) {
    for (let round = 0; round < rounds && !this.isOver; round++) {
      must(this.guests.map((guest) => guest.turn()).includes(true), "each guest waits for another");
    }
    return this.isOver;
  }

  // How many bytes moved on its two streams.
  moved() {
    return this.streams.map(strm.items);
  }

  end() {
    for (const guest of this.guests) guest.giveUp();
  }

  // What the sink has is what the source wrote, in capitals.
  finish(name) {
    must(this.turns(), "no end");
    const text = Buffer.from("A COUNT REPORTED IS A COUNT MOVED\n");
    const hash = hashOf(this.size, (k) => text[k % text.length]);
    const [, , sink] = this.guests;
    must(this.guests.every(({ state }) => state === "ended"), "a guest trapped");
    must(sink.ask("total") === this.size && sink.ask("hash") === hash, "other bytes");
    must(this.moved()[1] === this.size, "another count");
    console.log(`${name}: ${this.size} bytes, hash ${hex(hash)}`);
    this.end();
  }
}

const names = ["source", "filter", "sink"];

function hashOf(size, byteAt) {
  let hash = 0;
  for (let k = 0; k < size; k++) hash = (Math.imul(hash, 31) + byteAt(k)) | 0;
  return hash >>> 0;
}

function hex(word) {
  return word.toString(16).padStart(8, "0");
}

function runText() {
  const line = new Line(names, 34);
  must(line.turns(1000), "no end");
  const { memory, first } = line.guests[2].exports;
  process.stdout.write(Buffer.from(memory.buffer, first(), 34));
  line.finish("text");
}

function runPipe() {
  const from = performance.now();
  const line = new Line(names, size);
  must(line.turns(), "no end");
  console.error(`pipe: ${(performance.now() - from).toFixed(1)} ms`);
  line.finish("pipe");
}

// GUESTS THAT TRAP, END, OR DO WRONG

// A line of which one guest traps, or ends, and keeps all it has: the others are told, and end. What had moved before
// has moved.
function runBroken(name, at, state, size) {
  const line = new Line(names.with(at, "broken"), size);
  must(line.turns(1000), "no end");
  line.guests.forEach((guest, k) => must(guest.state === (k === at ? state : "ended"), "another end"));
  const [sent, came] = line.moved();
  if (at === 0) must(line.guests[2].ask("total") === came, "another count");
  console.log(`${name}: ${sent} bytes from the source, ${came} to the sink`);
  line.end();
}

// A guest that writes a letter that is none, to a read that waits or comes later: nothing of its write moves, it ends,
// and the reader is told that it is gone.
function stopWriter(readsFirst) {
  const [writer, reader] = [new Guest("letters"), new Guest("letters")];
  const ends = between(writer, reader, "stream<char>");
  if (readsFirst) reader.start(ends.read, 0, 0);
  writer.start(0, ends.write, 0);
  if (!readsFirst) reader.start(ends.read, 0, 0);
  must(writer.state === "trapped" && strm.refused(writer.at) === "STRM_BAD_ITEM", "the writer goes on");
  writer.giveUp();
  runOut(reader);
  must(reader.ask("total") === 0, "a bad letter moved");
  reader.giveUp();
}

function runBadLetter(size) {
  const line = new Line(names, size);
  stopWriter(false);
  stopWriter(true);
  line.finish("bad letter");
}

// Two guests of which the writer traps in mid-stream: it is given up before the reader is told, which then ends with
// what had moved. They have the numbers of two before them. How many bytes came.
function bury() {
  const [writer, reader] = [new Guest("broken"), new Guest("sink")];
  must([writer, reader].every(({ at }) => strm.number(at) < 5), "a number is not given again");
  const ends = between(writer, reader, "stream<u8>");
  writer.start(0, ends.write, 100000);
  reader.start(ends.read, 0, 0);
  do reader.turn();
  while (writer.turn() && writer.state === "runs");
  must(writer.state === "trapped" && reader.state === "runs", "another end");
  writer.giveUp();
  runOut(reader);
  const came = reader.ask("total");
  must(came === strm.items(ends.stream), "another count");
  reader.giveUp();
  return came;
}

// So many times at most, while a line in the same store goes on.
function runBuried(most) {
  const line = new Line(names, size);
  let lives = 0;
  let came = 0;
  for (; lives < most && !line.turns(1); lives++) came += bury();
  console.log(`buried: ${lives} guests that trapped, of which ${came} bytes came`);
  line.finish("buried");
}

// A guest that calls all it can with random arguments, and is entered again after a trap, as a runtime would not do.
// No byte of the others' memories changes, and nothing moves on their streams.
function runHostile(calls) {
  const line = new Line(names, size);
  must(!line.turns(5), "over before the attack");
  const enemy = new Guest("hostile");
  const look = () => line.guests.map(({ exports }) => Buffer.from(exports.memory.buffer.slice(0)));
  const [before, moved] = [look(), line.moved()];
  let done = 0;
  for (let k = 0; k < calls; k++) done += enemy.enter("attack");
  look().forEach((now, k) => must(now.equals(before[k]), "another guest's memory changed"));
  must(String(line.moved()) === String(moved), "another guest's stream moved");
  must([enemy, ...line.guests].every(({ at }) => strm.isTold(at)), "the store was not told of a memory");
  must(enemy.ask("wrong") === 0, "memory.grow did or answered something else");
  const grown = enemy.ask("grown");
  console.log(`hostile: ${calls} calls, ${done} done, ${calls - done} refused, its memory grew ${grown} times`);
  enemy.giveUp();
  line.finish("hostile");
}

// A guest that is refused, catches what is thrown, and goes on to call built-ins: it traps all the same.
function runCatching() {
  const guest = new Guest("catches");
  guest.start(0, 0, 0);
  must(guest.state === "trapped", "a guest that was refused goes on");
  must(guest.ask("caught") === 2, "what is refused is not thrown each time");
  console.log(`catching: trapped by ${strm.refused(guest.at)}`);
  guest.giveUp();
}

// MEMORIES THAT GROW

// A line of three guests whose memories grow twice each as bytes pass, while their reads and writes wait.
function runGrowing() {
  const line = new Line(["growing", "growing", "growing"], size);
  while (!line.isOver) {
    for (const guest of line.guests) {
      guest.turn();
      must(guest.state !== "runs" || strm.isTold(guest.at), "the store was not told of a memory");
    }
  }
  const byteAt = (k) => Math.imul(k, 2654435761) >>> 24;
  const hash = hashOf(size, (k) => byteAt(k) ^ 0x5a);
  for (const guest of line.guests) {
    must(guest.state === "ended", "a guest trapped, or waits for ever");
    must(guest.ask("done") === size && guest.ask("grown") === 2, "another count");
  }
  must(line.guests[1].ask("hash") === hashOf(size, byteAt), "other bytes to the filter");
  must(line.guests[2].ask("hash") === hash, "other bytes to the sink");
  const [grown, moved] = [strm.grown, strm.moved].map((count) => line.guests.reduce((sum, { at }) => sum + count(at), 0));
  console.log(
    `${size} bytes, hash ${hex(hash)}, through three guests whose memories grew ${grown} times, ` +
      `${moved} of them to another place`,
  );
  line.end();
}

// Guests one after the other, each with 1 GiB that it does not touch, and with the number of the one before.
function runWide(lives) {
  const before = process.memoryUsage.rss();
  let most = 0;
  for (let life = 0; life < lives; life++) {
    const wide = new Guest("growing");
    must(wide.enter("widen", 2 ** 30 / 65536), "it trapped");
    must(strm.isTold(wide.at) && wide.exports.memory.buffer.byteLength > 2 ** 30, "another size");
    most = Math.max(most, process.memoryUsage.rss() - before);
    wide.giveUp();
  }
  console.error(`guests with 1 GiB: ${most >> 10} KiB are there at most`);
  must(most < 2 ** 26, "what they do not touch is there");
  console.log(`${lives} guests with 1 GiB each that they do not touch, one after the other: less than 64 MiB are there`);
}

// A stream of tuples, and a future by which its reader answers.
function runSamples(count) {
  const [meter, tally] = [new Guest("meter"), new Guest("tally")];
  const samples = between(meter, tally, "stream<sample>");
  const answer = between(tally, meter, "future<u64>");
  meter.start(answer.read, samples.write, count);
  tally.start(samples.read, answer.write, 0);
  while (meter.turn() || tally.turn()) continue;
  must([meter, tally].every(({ state }) => state === "ended"), "a guest trapped, or waits for ever");
  console.log(`${count} samples come to ${BigInt.asUintN(64, meter.exports.answer())}`);
  for (const guest of [meter, tally]) guest.giveUp();
}

// Leaves this process few addresses more than it has.
function bound(spare) {
  const [, had] = readFileSync("/proc/self/status", "utf8").match(/VmSize:\s*(\d+) kB/);
  execFileSync("prlimit", ["--pid", process.pid, `--as=${Number(had) * 1024 + spare}`]);
}

if (moving) {
  bound(3 * 2 ** 28);
  runGrowing();
} else {
  runText();
  runPipe();
  runBroken("trapped source", 0, "trapped", 100000);
  runBroken("trapped filter", 1, "trapped", 100000);
  runBroken("trapped sink", 2, "trapped", 100000);
  runBroken("ended source", 0, "ended", 0);
  runBroken("ended sink", 2, "ended", 0);
  runBadLetter(100000);
  runBuried(100);
  runHostile(100000);
  runCatching();
  runGrowing();
  runWide(3);
  runSamples(1000000);
}
