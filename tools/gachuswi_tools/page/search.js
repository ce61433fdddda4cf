"use strict";
// Finds packages by a part of their names. The list is fetched when the field is first used, as a script, since a page that
// is opened as a file may not read other files.
(function () {
  const most = 30, form = document.querySelector(".search"), field = document.getElementById("search"), found = document.getElementById("found");
  let list = null, asked = false, withPage = "", without = "";
  const element = (kind, text) => Object.assign(document.createElement(kind), {textContent: text});
  const href = (path) => path.split("/").map(encodeURIComponent).join("/");

  function show() {
    const wanted = field.value.trim().toLowerCase();
    found.textContent = "";
    if (wanted === "" || list === null) return;
    const hits = list.filter(([text]) => text.toLowerCase().includes(wanted));
    // those that begin with it come first, and of these the ones that have a page
    const rank = ([text, , page]) => (text.toLowerCase().startsWith(wanted) ? 0 : 2) + (page ? 0 : 1);
    hits.sort((one, other) => rank(one) - rank(other));
    const having = hits.filter(([, , page]) => page).length;
    found.append(element("p", hits.length === 0 ? "No package has this in its name."
      : `${hits.length.toLocaleString("en")} found, ${having.toLocaleString("en")} of them ${withPage}`));
    const items = element("ul", "");
    items.className = "packages";
    for (const [text, said, page] of hits.slice(0, most)) {
      const item = element("li", "");
      if (page) item.append(Object.assign(element("a", text), {href: href(page)}), ` ${said}`);
      else item.append(`${text} ${without}`);
      items.append(item);
    }
    if (hits.length > most) items.append(Object.assign(element("li", `and ${(hits.length - most).toLocaleString("en")} more`), {className: "more"}));
    found.append(items);
  }

  window.packages = (ofThose, ofOthers, rows) => {
    [withPage, without] = [ofThose, ofOthers];
    list = rows.map((row) => typeof row === "string" ? [row, "", ""] : row);
    show();
  };
  function load() {
    if (asked) return;
    asked = true;
    document.head.append(Object.assign(document.createElement("script"), {src: "list.js"}));
  }
  form.hidden = false;
  form.addEventListener("submit", (event) => event.preventDefault());
  field.addEventListener("focus", load);
  field.addEventListener("input", () => { load(); show(); });
})();
