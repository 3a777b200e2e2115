// The table of the files that were handed in, with the end state of each.

const namesake = (file) => files.filter(({ name }) => name === file.name).length > 1;
const titleOf = (file) => (namesake(file) ? `${file.name} (file ${file.number})` : file.name);
function stateOf(file) {
  if (file.kind === "index") return indexWords(file).owner ? "whole" : "torn";
  if (file.status === "unread") return "damaged";
  return file.status === "done" ? file.seen.state : "torn";
}
function fileButtons(file) {
  const other = file.kind === "index" ? "volume" : "index", doubtful = other === "volume" || file.seen?.state === "damaged";
  const named = (text, click) => button(text, () => click(file), { "aria-label": `${text.toLowerCase()}: ${titleOf(file)}` });
  const buttons = [files.length > 1 && named("Show", show), doubtful && named(`Read as ${other}`, () => readAs(file, other)), named("Remove", remove)];
  return made("td", { class: "controls" }, made("div", { class: "row" }, ...buttons.filter(Boolean)));
}
function fileRow(file) {
  const twin = twinOf(file), word = made("span", { class: `word ${stateOf(file)}` }, file.seen ? endLine(file.seen) : endWords(file));
  const same = twin ? made("span", { class: "soft" }, ` the same bytes as ${titleOf(twin)}`) : null;
  return made("tr", { class: file === shown ? "shown" : undefined },
    made("th", { scope: "row", class: "name" }, made("bdi", {}, titleOf(file))),
    cell(grouped(file.size), "number", "bytes"),
    cell(file.kind, "", "read as"),
    made("td", { "data-head": "end state" }, word, same),
    fileButtons(file));
}
function drawFiles() {
  const heads = [head("File"), head("Bytes", "number"), head("Read as"), head("End state"), made("td", { class: "controls" })];
  const stopped = files.some(({ status }) => status === "stopped");
  at("files").hidden = files.length === 0;
  at("files").replaceChildren(made("h2", { id: "files-title" }, "Files"), table("files", heads, files.map(fileRow), { class: "slots files" }));
  if (stopped) at("files").append(made("p", { class: "controls" }, button("Go on checking", goOn, { id: "go-on" })));
  at("progress").hidden = !files.some(({ status }) => status === "checking");
}
