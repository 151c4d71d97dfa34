// The search: names.js has what can be found, as [name, kind, address, sentence, crate or header,
// users, words, language]: users is "users" if users have it, words are others that find it.
(() => {
  "use strict";
  const MOST = 40;
  const LATER = { variant: 2, field: 12, lemma: 8 };  // of equal names these come after calls
  const USERS = 15;  // what users have comes before what is private
  const ALIAS = 60;
  const query = document.getElementById("query");
  const found = document.getElementById("found");
  const root = document.body.dataset.root;
  let chosen = 0;

  // How well a name matches the typed text; 0 if it doesn't.
  function rank(name, typed) {
    const low = name.toLowerCase().split("<")[0];
    const last = low.slice(Math.max(low.lastIndexOf(":"), low.lastIndexOf(".")) + 1).trim()
      .replace(/^vb_/, "");
    if (name === typed) return 100;
    if (low === typed.toLowerCase() || last === typed.toLowerCase()) return 90;
    const want = typed.toLowerCase();
    if (last.startsWith(want)) return 70 - last.length / 100;
    if (low.startsWith(want)) return 65 - low.length / 100;
    if (("_" + low.replace(/[:-]+/g, "_")).includes("_" + want)) return 50 - low.length / 100;
    if (low.includes(want)) return 40 - low.length / 100;
    return 0;
  }

  // How well a row matches a word: by its name, by another word for it, or by its sentence.
  function good(row, word) {
    const want = word.toLowerCase();
    const alias = row[6].split(" ").some((it) => it.startsWith(want));
    const says = row[3].toLowerCase().includes(want);
    const best = Math.max(rank(row[0], word), alias ? ALIAS : 0, says ? 5 : 0);
    return best && row[5] ? best + USERS : best;
  }

  // The names that have each of the words, or whose sentences have them; the best ones first.
  function search(text) {
    const words = text.trim().split(/\s+/).filter(Boolean);
    const rows = [];
    for (const row of window.NAMES) {
      let sum = 0;
      for (const word of words) {
        const more = good(row, word);
        if (!more) { sum = 0; break; }
        sum += more;
      }
      if (sum) rows.push([sum - (LATER[row[1]] ?? 0), row]);
    }
    rows.sort((a, b) => b[0] - a[0] || a[1][0].localeCompare(b[1][0]));
    return rows.slice(0, MOST).map((it) => it[1]);
  }

  function element(name, text) {
    const made = document.createElement(name);
    made.textContent = text;
    return made;
  }

  function entry([name, kind, address, sentence, crate, , , language], i) {
    const item = document.createElement("li");
    item.id = `found-${i}`;
    item.setAttribute("role", "option");
    const link = document.createElement("a");
    link.href = root + address;
    const what = crate ? `${language} ${kind} of ${crate}` : `${language} ${kind}`;
    link.append(element("b", name), element("i", what), element("span", sentence));
    link.addEventListener("click", close);
    item.append(link);
    item.addEventListener("mousemove", () => choose(i));
    return item;
  }

  function choose(i) {
    const items = [...found.children];
    chosen = Math.max(0, Math.min(i, items.length - 1));
    items.forEach((it, k) => it.setAttribute("aria-selected", String(k === chosen)));
    items[chosen]?.scrollIntoView({ block: "nearest" });
    query.setAttribute("aria-activedescendant", items[chosen]?.id ?? "");
  }

  function show() {
    const text = query.value;
    found.replaceChildren(...search(text).map(entry));
    if (text.trim() && !found.children.length) {
      const none = element("li", "Nothing has this name.");
      none.className = "none";
      found.append(none);
    }
    found.hidden = !text.trim();
    query.setAttribute("aria-expanded", String(!found.hidden));
    choose(0);
  }

  function close() {
    found.hidden = true;
    query.blur();
  }

  query.addEventListener("input", show);
  query.addEventListener("focus", () => { if (query.value) show(); });
  query.addEventListener("keydown", (event) => {
    if (event.key === "ArrowDown") choose(chosen + 1);
    else if (event.key === "ArrowUp") choose(chosen - 1);
    else if (event.key === "Enter") found.children[chosen]?.querySelector("a")?.click();
    else if (event.key === "Escape") close();
    else return;
    event.preventDefault();
  });
  document.addEventListener("keydown", (event) => {
    const typing = /^(INPUT|TEXTAREA|SELECT)$/.test(document.activeElement?.tagName ?? "");
    if (event.key === "/" && !typing && !event.ctrlKey && !event.metaKey && !event.altKey) {
      event.preventDefault();
      query.focus();
      query.select();
    }
  });
  document.addEventListener("click", (event) => {
    if (!event.target.closest(".search")) found.hidden = true;
  });
})();
