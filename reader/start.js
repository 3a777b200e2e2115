// The page put together: the volume that is shown with its views, the definition's own numbers, and what starts it all.

const VIEWS = [["slots", "Slots"], ["changes", "What changed"], ["listing", "All records"]];
let view = "slots", opened = null;

// ---- The volume that is shown
function show(file) {
  shown = file;
  opened = null;
  view = view === "name" ? "slots" : view;
  drawAll();
}
function openView(name) {
  view = name;
  opened = null;
  drawAll();
  at("views")?.querySelector('[aria-current="true"]')?.focus();
}
function openName(name) {
  view = "name";
  opened = name;
  drawAll();
  at("opened").focus();
}
function views(file) {
  const { seen } = file, current = view === "name" ? "slots" : view;
  if (seen.leaves.length === 0) return [];
  const one = ([key, text]) => button(text, () => openView(key), { "aria-current": String(key === current), class: "view" });
  const draw = { slots: () => drawSlots(seen), changes: () => drawChanges(file), listing: () => drawListing(seen), name: () => drawName(seen, opened) };
  return [made("nav", { id: "views", class: "controls row", "aria-label": "views" }, ...VIEWS.map(one)), ...draw[view]()];
}
function contentOf(file) {
  if (file.status === "unread") {
    return [verdict("damaged", "Not read", `The file could not be read: ${file.problem} A folder cannot be, nor a file that was moved since.`)];
  }
  if (file.kind === "index") return [indexVerdict(file)];
  if (file.status === "stopped") {
    const where = `Its check was stopped at byte ${grouped(file.place)} of ${grouped(file.size)}.`;
    return [verdict("torn", "Stopped", `${where} Nothing is said of it until the check has ended.`)];
  }
  if (file.status !== "done") return [made("p", { class: "soft" }, "Its limits are being worked again.")];
  return file.seen.state === "damaged" ? damage(file) : [standingVerdict(file), ...views(file)];
}
function drawAll() {
  drawFiles();
  at("volume").hidden = shown === null;
  if (shown === null) return;
  const title = made("h2", { id: "volume-title" }, made("bdi", {}, titleOf(shown)), ` \u2014 ${many(shown.size, "byte")}`);
  at("volume").replaceChildren(title, ...contentOf(shown));
}

// ---- The definition's own numbers, tried in this browser
async function trySelf() {
  const all = EXAMPLES.length;
  let right = 0;
  for (const one of EXAMPLES) {
    if (attempt(one) === one.at(-1)) right += 1;
    await turn();
  }
  at("self").textContent = right === all
    ? `All ${all} numbers to try of the definition (its section 13) come out with their bits in this browser.`
    : `Do not trust this page: of the definition's ${all} numbers to try, ${all - right} come out wrong in this browser.`;
  if (right !== all) at("self").className = "verdict damaged";
}

// ---- Volumes that awaqlla page put in: of each the name and the bytes, in hexadecimal
function held() {
  const bytesOf = (text) => Uint8Array.from(text.match(/../g) ?? [], (two) => parseInt(two, 16));
  return [...document.querySelectorAll("meta[name=volume]")].map(({ content }) => {
    const [name, bytes] = content.split(" ").map(bytesOf);
    return hand(new TextDecoder().decode(name), bytes.length, bytes);
  });
}
function listen() {
  at("file").addEventListener("change", () => {
    const list = [...at("file").files];
    at("file").value = "";
    take(list);
  });
  at("profile").addEventListener("change", checkAgain);
  at("stop").addEventListener("click", stop);
  const over = (event) => {
    event.preventDefault();
    at("choose").classList.add("over");
  };
  addEventListener("dragenter", over);
  addEventListener("dragover", over);
  addEventListener("dragleave", (event) => { if (!event.relatedTarget) at("choose").classList.remove("over"); });
  addEventListener("drop", (event) => {
    event.preventDefault();
    at("choose").classList.remove("over");
    take([...event.dataTransfer.files]);
  });
}
async function start() {
  listen();
  const put = held();
  if (put.length > 0) {
    show(put.find(({ kind }) => kind === "volume") ?? put[0]);
    await run();
  }
  await trySelf();
}
if (typeof document !== "undefined") start();
