"use strict";
// Shows what is pointed at: a record with the cabinet after it, a word with its life. All words stand in the data: nothing is worked out.
(() => {
  const data = JSON.parse(document.getElementById("data").textContent);
  const main = document.querySelector("main"), body = document.getElementById("rows");
  const whole = document.getElementById("whole"), seen = document.getElementById("seen");
  const state = document.getElementById("state"), life = document.getElementById("life");
  let pinned = 0, shown = 0, lit = null;

  // The last change that is not after record k.
  const at = (changes, k) => {
    let low = 0, high = changes.length - 1;
    while (low < high) {
      const middle = (low + high + 1) >> 1;
      if (changes[middle][0] <= k) low = middle; else high = middle - 1;
    }
    return changes[low][1];
  };
  const make = (name, text, className) => {
    const element = document.createElement(name);
    element.textContent = text;
    if (className) element.className = className;
    return element;
  };
  const rowOf = k => {
    let low = 0, high = data.rows.length - 1;
    while (low < high) {
      const middle = (low + high + 1) >> 1;
      if (data.rows[middle][0] <= k) low = middle; else high = middle - 1;
    }
    return data.rows[low];
  };

  const show = k => {
    if (k === shown || !data.rows.length) return;
    for (const row of document.querySelectorAll(".row.on")) row.classList.remove("on");
    shown = k;
    const [from, to] = rowOf(k), row = document.getElementById("r" + from);
    if (row) row.classList.add("on");
    const [record, answer] = data.records[from - 1];
    const name = from === to ? `Record ${from}` : `Records ${from} to ${to}`;
    state.replaceChildren(make("h2", name), make("p", record), make("p", answer), make("h2", "The cabinet after it"));
    data.seats.forEach(([line, unread, backup], p) => {
      const seat = make("div", "", "seat p" + p % 6);
      seat.append(make("p", at(line, to)), make("p", at(unread, to), "small"), make("p", at(backup, to), "small"));
      state.append(seat);
    });
    for (const board of data.boards) state.append(make("p", at(board, to)));
  };

  const go = k => {
    const [, , y, height] = rowOf(k);
    main.scrollTop = body.offsetTop + y + height / 2 - main.clientHeight * 0.45;
    pinned = k;
    show(k);
  };

  const tell = word => {
    for (const element of document.querySelectorAll(".lit")) element.classList.remove("lit");
    lit = word;
    life.replaceChildren();
    if (word === null) return;
    for (const element of document.querySelectorAll(`[data-w="${word}"]`)) element.classList.add("lit");
    const [name, stages] = data.lives[word];
    const list = document.createElement("ol");
    for (const [record, stage] of stages) {
      const item = document.createElement("li"), button = make("button", `record ${record}`);
      button.addEventListener("click", () => go(record));
      item.append(button, ": " + stage);
      list.append(item);
    }
    life.append(make("h2", "The word " + name), list);
  };

  main.addEventListener("mousemove", event => {
    const row = event.target.closest("[data-r]");
    if (row && !pinned) show(Number(row.dataset.r));
  });
  main.addEventListener("click", event => {
    const row = event.target.closest("[data-r]"), word = event.target.closest("[data-w]");
    if (!row) return;
    const k = Number(row.dataset.r);
    tell(word ? Number(word.dataset.w) : lit);
    pinned = pinned === k && !word ? 0 : k;
    show(k);
  });
  whole.addEventListener("click", event => {
    const y = event.offsetY / whole.clientHeight * whole.viewBox.baseVal.height;
    main.scrollTop = body.offsetTop + y - main.clientHeight / 2;
  });
  main.addEventListener("scroll", () => {
    seen.setAttribute("y", Math.max(0, main.scrollTop - body.offsetTop));
    seen.setAttribute("height", main.clientHeight);
  });
  document.addEventListener("keydown", event => {
    const index = data.rows.indexOf(rowOf(shown || data.open));
    const crashes = [...document.querySelectorAll(".row .cross")].map(cross => Number(cross.closest("[data-r]").dataset.r));
    const next = {
      ArrowDown: () => data.rows[Math.min(index + 1, data.rows.length - 1)][0],
      ArrowUp: () => data.rows[Math.max(index - 1, 0)][0],
      c: () => crashes.find(k => k > shown),
      C: () => crashes.reverse().find(k => k < shown),
    }[event.key];
    if (event.key === "Escape") { pinned = 0; tell(null); }
    if (!next || event.ctrlKey || event.metaKey || event.altKey) return;
    event.preventDefault();
    const k = next();
    if (k) go(k);
  });

  const named = /^#r([0-9]+)$/.exec(location.hash);
  if (data.rows.length) { go(named ? Number(named[1]) : data.open); pinned = 0; }
  main.dispatchEvent(new Event("scroll"));
})();
