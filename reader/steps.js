// The steps of one limit, as section 12 of the paper writes them: the section, the step's name there, its value.
// While `noted` is a list the numbers put their steps there; else nothing is kept.

let noted = null;
// Of a section some named values: a BigInt in decimal where its name stands in `wholes`, a double, or a pair.
function note(section, values, wholes = "") {
  if (noted === null) return;
  for (const [name, v] of Object.entries(values)) noted.push({ section, name, text: wholes.split(" ").includes(name) ? String(v) : bitsText(v) });
}
const bitsText = (v) => (typeof v === "bigint" ? hex(v) : `${hex(v.low)} ${hex(v.high)}`);
const stepLine = (step) => step.section.padEnd(5) + step.name.padEnd(19) + step.text;
// What is noted while some work is done.
function stepsOf(work) {
  noted = [];
  try {
    work();
    return noted;
  } finally {
    noted = null;
  }
}
