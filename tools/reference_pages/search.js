"use strict";
// The search of each page: over names, paths and doc comments, in `entries`, which entries.js has.
(() => {
  const root = document.documentElement.dataset.root;
  const input = document.querySelector(".search input");
  const results = document.querySelector(".results");
  const rows = entries.map(([name, kind, path, address, text]) =>
    ({ name, kind, path, address, text, low: name.toLowerCase(), at: path.toLowerCase(), says: text.toLowerCase() }));

  // How well a word fits an entry; 0 if it doesn't.
  const fit = (row, word) => {
    if (row.low === word) return 100;
    if (row.low.startsWith(word)) return 70 - Math.min(row.name.length - word.length, 20);
    if (row.low.includes(word)) return 40 - Math.min(row.name.length - word.length, 20);
    if (row.at.includes(word)) return 12;
    const at = row.says.search(new RegExp("(^|\\W)" + word.replace(/[^\w]/g, "\\$&")));
    return at < 0 ? (row.says.includes(word) ? 3 : 0) : 10 - Math.min(at / 40, 5);
  };
  const weight = { struct: 4, enum: 4, trait: 4, method: 4, fn: 4, type: 4, definition: 3, module: 2, variant: 1, law: 1, of: -6 };
  const found = (words) => rows
    .map((row) => {
      const fits = words.map((word) => fit(row, word));
      return { row, score: fits.includes(0) ? 0 : fits.reduce((a, b) => a + b) + (weight[row.kind.split(" ")[0]] || 0) };
    })
    .filter((it) => it.score > 0)
    .sort((a, b) => b.score - a.score || a.row.name.length - b.row.name.length || (a.row.path < b.row.path ? -1 : 1))
    .slice(0, 40);

  const part = (tag, name, text) => {
    const made = document.createElement(tag);
    if (name) made.className = name;
    made.textContent = text;
    return made;
  };
  if (matchMedia("(max-width: 52rem)").matches) document.querySelector(".side details").open = false;
  let chosen = -1;
  const choose = (at) => {
    const links = results.querySelectorAll("a");
    links.forEach((it) => it.classList.remove("chosen"));
    chosen = links.length ? (at + links.length) % links.length : -1;
    if (chosen >= 0) {
      links[chosen].classList.add("chosen");
      links[chosen].scrollIntoView({ block: "nearest" });
    }
  };
  const show = () => {
    const words = input.value.toLowerCase().split(/[\s.:]+/).filter(Boolean);
    results.replaceChildren();
    results.hidden = !words.length;
    for (const { row } of words.length ? found(words) : []) {
      const link = document.createElement("a");
      link.href = root + row.address;
      link.append(part("b", "", row.name), part("span", "at", " " + row.kind + " · " + row.path), part("span", "says", row.text));
      const item = document.createElement("li");
      item.append(link);
      results.append(item);
    }
    if (words.length && !results.children.length) results.append(part("li", "at", "Nothing has this name or says this."));
    choose(0);
  };
  input.addEventListener("input", show);
  input.addEventListener("keydown", (event) => {
    if (event.key === "ArrowDown" || event.key === "ArrowUp") {
      choose(chosen + (event.key === "ArrowDown" ? 1 : -1));
      event.preventDefault();
    } else if (event.key === "Enter" && chosen >= 0) {
      results.querySelectorAll("a")[chosen].click();
    } else if (event.key === "Escape") {
      input.value = "";
      show();
      input.blur();
    }
  });
  results.addEventListener("click", () => { results.hidden = true; });
  document.addEventListener("click", (event) => { if (!event.target.closest(".search")) results.hidden = true; });
  document.addEventListener("keydown", (event) => {
    if (event.key === "/" && document.activeElement !== input) {
      input.focus();
      event.preventDefault();
    }
  });
})();
