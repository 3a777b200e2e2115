// The definition's own numbers to try, section 13 of the paper: EXAMPLES, which tools/reader takes from there.

// One of section 13's numbers to try, [what, arguments.., answer]: what comes out here, in the same words.
function attempt([what, ...words]) {
  const bits = words.slice(0, -1).map((word) => (/^[0-9a-f]{16}$/.test(word) ? BigInt("0x" + word) : word));
  const ticks = (word) => word.split(", ").map(BigInt);
  const told = (answer, ...names) => (answer.refusal ? `refusal ${answer.refusal}` : names.map((name) => hex(answer[name])).join(" "));
  if (what === "limit") return told(limit(BigInt(words[0]), ticks(words[1]), BigInt(words[2])), "mean", "spread", "e", "limit");
  if (what === "band") return told(band(ticks(words[0]), BigInt(words[1])), "low", "high");
  return hex({ plus, minus, times, over, root, quantile, inverse }[what](...bits));
}
