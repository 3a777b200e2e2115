// The files that were handed in, and the check of each volume, a slice at a time so that the page stays alive.
// A file is { number, name, size, bytes, kind: "volume" or "index", status, seen, steps, place, problem }; bytes are at most one more than a volume has.

const MOST = Number(C.VOLUME_MOST);
const files = [];
let shown = null, running = false, handed = 0;

// ---- What a file is: an index by its name, or by its shape (section 10). No volume that stands has the shape: where an index has a name's first
// letter, a volume has the low byte of a name's count.
function looksLikeIndex({ name, bytes }) {
  if (/\.index$/i.test(name)) return true;
  const number = (start, width) => bytes.subarray(start, start + width).reduceRight((n, b) => 256 * n + b, 0);
  let place = 2, before = "";
  for (let left = number(0, 2); left > 0; left -= 1) {
    const size = number(place, 2), end = place + 2 + size + 4;
    if (size < C.NAME_LEAST || size > C.NAME_MOST || end > bytes.length || number(end - 4, 4) >= C.VOLUME_MOST) return false;
    const entry = String.fromCharCode(...bytes.subarray(place + 2, end - 4));
    if (entry <= before || !/^[!-~]+$/.test(entry)) return false;
    before = entry;
    place = end;
  }
  return bytes.length === place;
}
function hand(name, size, bytes) {
  const file = { number: (handed += 1), name, size, bytes, place: 0 };
  file.kind = looksLikeIndex(file) ? "index" : "volume";
  file.status = file.kind === "index" ? "done" : "waiting";
  files.push(file);
  return file;
}
async function take(list) {
  const taken = [];
  for (const one of list) {
    try {
      const bytes = new Uint8Array(await one.slice(0, MOST + 1).arrayBuffer());
      taken.push(hand(one.name, one.size, bytes));
    } catch (error) {
      const file = hand(one.name, one.size, new Uint8Array(0));
      taken.push(Object.assign(file, { kind: "volume", status: "unread", problem: error.message }));
    }
  }
  if (taken.length === 0) return say("There was no file in what was handed in.", true);
  const first = taken.find((file) => file.kind === "volume") ?? taken[0];
  show(shown !== null && shown.kind === "volume" && first.kind === "index" ? shown : first);
  await run();
}
// Whether a file has the bytes of one before it.
function twinOf(file) {
  const same = (other) => other.number < file.number && other.size === file.size && begins(file.bytes, other.bytes);
  return file.size <= MOST ? files.find(same) : undefined;
}

// ---- Checking. A slice ends after some milliseconds; a message gives the page its turn, which a timer would delay in a page behind others.
const SLICE = 12;
const turns = [];
let channel = null;
function turn() {
  if (channel === null) {
    channel = new MessageChannel();
    channel.port1.onmessage = () => turns.shift()();
  }
  return new Promise((go) => {
    turns.push(go);
    channel.port2.postMessage(0);
  });
}

async function run() {
  if (running) return;
  running = true;
  for (let file; (file = files.find(({ status }) => status === "waiting")); ) {
    try {
      await check(file);
    } catch (error) {
      Object.assign(file, { status: "unread", problem: `${error.message}.` });
    }
  }
  running = false;
  drawAll();
}
async function check(file) {
  file.steps ??= surveySteps(file.bytes, file.size, at("profile").checked);
  file.status = "checking";
  drawAll();
  let tenth = 0;
  while (file.status === "checking" && files.includes(file)) {
    const until = performance.now() + SLICE;
    let step;
    do step = file.steps.next(); while (!step.done && performance.now() < until);
    if (step.done) return finish(file, step.value);
    file.place = step.value;
    tenth = progress(file, tenth);
    await turn();
  }
}
function finish(file, seen) {
  Object.assign(file, { status: "done", seen, steps: undefined });
  say(`${file.name}: ${endWords(file)}`);
}
// Shows how far the check is; says it at every tenth.
function progress(file, tenth) {
  at("bar").value = file.place / file.size;
  at("how-far").textContent = `${file.name}: ${grouped(file.place)} of ${grouped(file.size)} bytes read, their limits worked again`;
  if (file.place * 10 < file.size * (tenth + 1)) return tenth;
  say(`${file.name}: ${tenth + 1} tenths read`);
  return tenth + 1;
}
function stop() {
  for (const file of files) if (file.status === "checking" || file.status === "waiting") file.status = "stopped";
  say("Stopped.");
  drawAll();
  at("file").focus();
}
function goOn() {
  for (const file of files) if (file.status === "stopped") file.status = "waiting";
  run();
}
const UNREAD = { seen: undefined, steps: undefined, place: 0 };
function checkAgain() {
  for (const file of files) if (file.kind === "volume" && file.status !== "unread") Object.assign(file, { status: "waiting", ...UNREAD });
  run();
}
function remove(file) {
  files.splice(files.indexOf(file), 1);
  if (shown === file) shown = files.find(({ kind }) => kind === "volume") ?? files[0] ?? null;
  drawAll();
  at("file").focus();
}
function readAs(file, kind) {
  Object.assign(file, { kind, status: kind === "index" ? "done" : "waiting", ...UNREAD });
  show(file);
  run();
}

// ---- The end state in words
function endWords(file) {
  if (file.status === "unread") return "not read";
  if (file.status === "stopped") return "stopped, not checked";
  if (file.status !== "done") return file.status === "checking" ? "being checked" : "waits";
  if (file.kind === "index") return indexWords(file).word;
  return { whole: file.size === 0 ? "whole, and empty" : "whole", torn: "torn end", damaged: `damaged ${file.seen.refusal}` }[file.seen.state];
}
// Of which of the volumes here a file is the index (section 10); what is behind an index is not judged.
function indexWords(file) {
  const volumes = files.filter((other) => other.kind === "volume");
  const unfinished = volumes.some(({ status }) => status !== "done" && status !== "unread");
  const standing = volumes.filter(({ seen }) => seen && seen.state !== "damaged");
  const owner = standing.find(({ seen }) => begins(file.bytes, indexOf(seen.leaves)));
  if (owner) return { word: "own", owner, length: indexOf(owner.seen.leaves).length };
  if (volumes.length === 0) return { word: "index without its volume" };
  if (unfinished) return { word: "index, the volume is not checked yet" };
  return { word: standing.length === 0 ? "index, and the volume is damaged" : "not own: declined 14" };
}
