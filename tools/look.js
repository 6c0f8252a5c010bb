<pre id="tried">nothing</pre>
<script>
// Points, clicks and types as a person does, and says whether the page shows what it should.
(() => {
  const faults = [];
  const wants = (holds, what) => { if (!holds) faults.push(what); };
  const text = id => document.getElementById(id).textContent;
  const on = (element, type) => element.dispatchEvent(new MouseEvent(type, { bubbles: true }));
  const key = name => document.dispatchEvent(new KeyboardEvent("keydown", { key: name, bubbles: true }));
  const rows = [...document.querySelectorAll(".row")], words = [...document.querySelectorAll(".life")];
  const crash = document.querySelector(".row .cross");
  if (crash) wants(document.querySelector(".row.on .cross"), "it opens at a crash");
  for (const row of [rows[0], rows[rows.length - 1]].filter(row => row)) {
    on(row, "mousemove");
    wants(new RegExp("^Records? " + row.dataset.r + "(?![0-9])").test(text("state")), "it shows record " + row.dataset.r);
    wants(row.classList.contains("on") && document.querySelectorAll(".row.on").length === 1, "it marks record " + row.dataset.r);
  }
  for (const word of words.slice(0, 20)) {
    on(word, "click");
    wants(text("life").startsWith("The word "), "it tells a word's life");
    wants(document.querySelectorAll("#life li").length > 0, "with what became of it");
    wants(word.classList.contains("lit"), "and marks it");
  }
  const step = document.querySelector("#life button");
  if (step) {
    on(step, "click");
    wants(document.querySelector(".row.on"), "it goes to where the word was");
  }
  key("Escape");
  wants(text("life") === "", "Escape lets go");
  if (rows.length) {
    on(rows[0], "mousemove");
    key("ArrowDown");
    wants(rows.length < 2 || rows[1].classList.contains("on"), "an arrow key goes on");
  }
  const outside = performance.getEntriesByType("resource").map(entry => entry.name);
  wants(outside.length === 0, "it asks for nothing outside: " + outside);
  document.getElementById("tried").textContent = faults.length ? "FAULTS: " + faults.join("; ")
    : `ok, ${rows.length} rows and ${words.length} marks of words tried`;
})();
</script>
