// Whether the page can be read and pressed as it is laid out. `within` is what is looked at. The value is a list of
// faults. The page is judged once a frame has been drawn since the last change, and a control once its room is drawn,
// after so many frames at most.
(async (within) => {
  const faults = [], CONTROLS = "button,input,select", MOST_FRAMES = 300;
  const frame = () => new Promise((done) => { requestAnimationFrame(() => requestAnimationFrame(done)); });
  await frame();
  const all = (selector, from = document) => [...from.querySelectorAll(selector)];
  const isSeen = (node) => node.checkVisibility({ visibilityProperty: true }) && node.getClientRects().length > 0;
  const named = (node) => `${node.tagName} ${node.dataset?.key ?? node.className ?? ""}`.trim();
  const nodes = all(within).flatMap((part) => [part, ...all("*", part)]).filter(isSeen);

  // 1.4.10: nothing is wider than the window.
  if (document.documentElement.scrollWidth > innerWidth) {
    faults.push(`the page is ${document.documentElement.scrollWidth} wide in ${innerWidth}`);
  }

  // No control lies under something else, and none is cut.
  const cuts = (node) => /hidden|clip/.test(getComputedStyle(node).overflowX);
  for (const node of nodes.filter((one) => one.matches(CONTROLS))) {
    node.scrollIntoView({ block: "center" });
    let frames = 0;
    while (!node.checkVisibility({ contentVisibilityAuto: true }) && frames < MOST_FRAMES) {
      await frame();
      frames += 1;
    }
    if (frames === MOST_FRAMES) faults.push(`${named(node)} isn't drawn after ${frames} frames`);
    const box = node.getBoundingClientRect();
    const found = document.elementFromPoint(box.x + box.width / 2, box.y + box.height / 2);
    const isOwn = found && (node.contains(found) || [...(node.labels ?? [])].some((label) => label.contains(found)));
    if (!isOwn) faults.push(`${named(node)} lies under ${found ? named(found) : "nothing"}`);
    for (let one = node.parentElement; one; one = one.parentElement) {
      const edge = one.getBoundingClientRect();
      if (cuts(one) && (box.left < edge.left - 1 || box.right > edge.right + 1)) faults.push(`${named(node)} is cut`);
    }
  }

  // What stands side by side in a line doesn't overlap.
  for (const line of nodes.filter((one) => one.matches(".member,.head,.columns,header,#sum,.acts,.figures"))) {
    const boxes = [...line.children].filter((one) => isSeen(one) && !one.matches(".spoken"))
      .map((one) => [one, one.getBoundingClientRect()]).filter(([, box]) => box.width > 0);
    boxes.forEach(([one, a], at) => boxes.slice(at + 1).forEach(([other, b]) => {
      const across = Math.min(a.right, b.right) - Math.max(a.left, b.left);
      const down = Math.min(a.bottom, b.bottom) - Math.max(a.top, b.top);
      if (across > 1 && down > 1) faults.push(`${named(one)} and ${named(other)} of ${named(line)} overlap`);
    }));
  }

  // No text stands a few letters a line, and no figure is cut.
  const walker = document.createTreeWalker(document.body, NodeFilter.SHOW_TEXT), range = document.createRange();
  while (walker.nextNode()) {
    const text = walker.currentNode, node = text.parentElement, letters = text.data.trim().length;
    if (letters < 4 || !nodes.includes(node) || node.closest("option,.spoken")) continue;
    range.selectNodeContents(text);
    const lines = new Set([...range.getClientRects()].map(({ top }) => Math.round(top))).size;
    if (lines > 1 && letters / lines < 4) faults.push(`${text.data} of ${named(node)} takes ${lines} lines`);
  }
  for (const node of nodes.filter((one) => one.matches(".figure,.number,.member > button"))) {
    if (node.scrollWidth > node.clientWidth + 1) faults.push(`${node.textContent} of ${named(node)} is cut`);
  }
  return [...new Set(faults)];
})
