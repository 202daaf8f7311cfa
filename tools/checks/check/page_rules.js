// Rules of WCAG 2.2 and WAI-ARIA 1.2 that a program can judge, as axe-core does. The value is a list of faults.
(() => {
  const faults = [], all = (selector, from = document) => [...from.querySelectorAll(selector)];
  const fault = (rule, node, more = "") => faults.push(`${rule}: ${node.outerHTML.slice(0, 120)} ${more}`);
  const isSeen = (node) => node.checkVisibility({ visibilityProperty: true }) && node.getClientRects().length > 0;
  const words = (text) => text.replace(/[\u2068\u2069]/g, "").replace(/\s+/g, " ").trim();
  const byId = (ids) => ids.split(/\s+/).map((id) => document.getElementById(id)?.textContent ?? "").join(" ");
  const labelText = (label) => [...label.childNodes].filter((node) => !node.matches?.("input,select,textarea"))
    .map((node) => node.textContent).join(" ");
  const CONTROLS = "a[href],button,input,select,textarea,summary,[role=button],[tabindex]";
  const controls = all(CONTROLS).filter(isSeen);
  const labelsOf = (node) => [...(node.labels ?? [])].map(labelText).join(" ");
  const textOf = (node) => (node.matches("input,select") ? "" : node.textContent);
  const nameOf = (node) => words(node.ariaLabel || byId(node.getAttribute("aria-labelledby") ?? "") || labelsOf(node)
    || textOf(node) || node.title);

  // 3.1.1, 2.4.2, 1.3.1: the page's language, its title, one main part, and headings in order.
  if (!document.documentElement.lang) faults.push("the page has no language");
  if (!document.title) faults.push("the page has no title");
  if (all("main").length !== 1 || all("h1").length !== 1) faults.push("the page has not one main part and one h1");
  const levels = all("h1,h2,h3,h4,h5,h6").filter(isSeen).map((node) => Number(node.tagName[1]));
  if (levels[0] !== 1 || levels.some((level, at) => at > 0 && level > levels[at - 1] + 1)) {
    faults.push(`headings have the levels ${levels}`);
  }
  for (const node of all("h1,h2,h3,h4").filter(isSeen)) if (!words(node.textContent)) fault("empty heading", node);

  // 4.1.2: each control has a name, and no other one has the same. 2.5.3: its text stands in its name.
  const names = new Map();
  for (const node of controls) {
    const name = nameOf(node), text = node.matches("button") ? words(node.textContent) : "";
    if (!name) fault("no name", node);
    if (names.has(name)) fault("a name twice", node, name);
    names.set(name, node);
    if (/\w/.test(text) && !name.toLowerCase().includes(text.toLowerCase())) fault("text not in name", node, name);
    if (node.tabIndex > 0) fault("an order of its own", node);
    if (node.parentElement.closest("a[href],button,select,[role=button]")) fault("a control in a control", node);
  }

  // 2.5.8: a target has 24 pixels each way, the label around it included.
  for (const node of controls) {
    const boxes = [node, ...(node.labels ?? [])].map((one) => one.getBoundingClientRect());
    if (!boxes.some(({ width, height }) => width >= 24 && height >= 24)) fault("a small target", node);
  }

  // ARIA: roles, states and references.
  const ids = all("[id]").map((node) => node.id);
  for (const id of ids) if (ids.indexOf(id) !== ids.lastIndexOf(id)) faults.push(`two nodes have the id ${id}`);
  for (const attribute of ["aria-labelledby", "aria-describedby", "aria-controls", "for"]) {
    for (const node of all(`[${attribute}]`)) {
      for (const id of node.getAttribute(attribute).split(/\s+/)) if (!ids.includes(id)) fault("no such id", node, id);
    }
  }
  const ROLES = ["status", "alert", "search", "group", "list", "listitem", "button", "meter"];
  for (const node of all("[role]")) if (!ROLES.includes(node.getAttribute("role"))) fault("an unknown role", node);
  for (const node of all("[role=meter]")) {
    const [least, now, most] = ["min", "now", "max"].map((one) => Number(node.getAttribute(`aria-value${one}`) ?? NaN));
    if (!(least <= now && now <= most) || !node.ariaLabel || !node.ariaValueText) fault("a meter without words", node);
  }
  for (const node of all("[role=list]")) {
    for (const child of node.children) if (child.getAttribute("role") !== "listitem") fault("not an item", child);
  }
  for (const node of all("[role=listitem]")) if (!node.parentElement.matches("[role=list]")) fault("no list", node);
  for (const node of all("ol,ul")) for (const child of node.children) if (child.tagName !== "LI") fault("no li", child);
  for (const node of all("dl")) for (const child of node.children) if (!/D[DT]/.test(child.tagName)) fault("dl", child);
  for (const node of all("[aria-expanded]")) {
    if (!["true", "false"].includes(node.getAttribute("aria-expanded"))) fault("aria-expanded", node);
  }
  for (const node of all("section,form,[role=group]").filter(isSeen)) {
    if (!node.ariaLabel && !node.getAttribute("aria-labelledby")) fault("no name", node);
  }

  // 2.1.1: what scrolls can be scrolled by keys.
  for (const node of all("main *").filter(isSeen)) {
    const scrolls = /auto|scroll/.test(getComputedStyle(node).overflowY) && node.scrollHeight > node.clientHeight + 1;
    if (scrolls && !node.matches(CONTROLS) && !node.querySelector(CONTROLS)) fault("scrolls by pointer alone", node);
  }

  // 1.4.3: text stands out from what is behind it by 4.5, and large text by 3.
  const parts = (colour) => (colour.match(/[\d.]+/g) ?? []).map(Number);
  const ground = (node) => {
    for (let one = node; one; one = one.parentElement) {
      const [r, g, b, alpha = 1] = parts(getComputedStyle(one).backgroundColor);
      if (alpha > 0.99) return [r, g, b];
    }
    return [255, 255, 255];
  };
  const light = (colour) => {
    const linear = colour.slice(0, 3).map((part) => part / 255)
      .map((part) => (part <= 0.03928 ? part / 12.92 : ((part + 0.055) / 1.055) ** 2.4));
    return 0.2126 * linear[0] + 0.7152 * linear[1] + 0.0722 * linear[2];
  };
  const walker = document.createTreeWalker(document.body, NodeFilter.SHOW_TEXT);
  const seen = new Set();
  while (walker.nextNode()) {
    const node = walker.currentNode.parentElement;
    if (!walker.currentNode.data.trim() || seen.has(node) || node.closest("option,:disabled,dialog") || !isSeen(node)) {
      continue;
    }
    seen.add(node);
    const style = getComputedStyle(node), size = parseFloat(style.fontSize);
    const [low, high] = [light(parts(style.color)), light(ground(node))].sort((a, b) => a - b);
    const isLarge = size >= 24 || (size >= 18.66 && Number(style.fontWeight) >= 700);
    const ratio = (high + 0.05) / (low + 0.05);
    if (ratio < (isLarge ? 3 : 4.5)) fault(`a contrast of ${ratio.toFixed(2)}`, node);
  }
  return [...new Set(faults)];
})()
