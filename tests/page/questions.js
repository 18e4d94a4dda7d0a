// What is wrong with the page as it is laid out now; asked of it by the test, and no part of it.
(() => {
  const wrong = [];
  const root = document.documentElement;
  if (root.scrollWidth > window.innerWidth) wrong.push(`wider than the window: ${root.scrollWidth}`);

  const seen = (node) => node.parentElement.getClientRects().length > 0;
  const mayBreak = (node) => node.parentElement.closest(".name, .digest, .bytes, code, svg, style, title");
  const texts = [];
  const walker = document.createTreeWalker(document.body, NodeFilter.SHOW_TEXT);
  for (let node = walker.nextNode(); node; node = walker.nextNode()) {
    if (node.data.trim() && seen(node) && !node.parentElement.closest("svg, style")) texts.push(node);
  }

  // A word stands on one line.
  for (const node of texts) {
    if (mayBreak(node)) continue;
    for (const word of node.data.matchAll(/[^\s\-\/]+/g)) {
      const range = document.createRange();
      range.setStart(node, word.index);
      range.setEnd(node, word.index + word[0].length);
      const lines = new Set([...range.getClientRects()].map((rect) => Math.round(rect.top)));
      if (lines.size > 1) wrong.push(`broken word: ${word[0]}`);
    }
  }
  // A unit of bytes and an eighth of a digest stand on one line too.
  for (const unit of document.querySelectorAll(".bytes .unit")) {
    if (unit.getClientRects().length > 1) wrong.push(`broken unit: ${unit.textContent}`);
  }

  // Text is told from what is behind it: 4.5 to 1, as WCAG asks of small text.
  const colour = (said) => {
    const parts = said.match(/[\d.]+/g).map(Number);
    return parts.length > 3 && parts[3] === 0 ? null : parts.slice(0, 3);
  };
  const light = (rgb) => {
    const [r, g, b] = rgb.map((part) => {
      const share = part / 255;
      return share <= 0.03928 ? share / 12.92 : ((share + 0.055) / 1.055) ** 2.4;
    });
    return 0.2126 * r + 0.7152 * g + 0.0722 * b;
  };
  const behind = (element) => {
    for (let at = element; at; at = at.parentElement) {
      const found = colour(getComputedStyle(at).backgroundColor);
      if (found) return found;
    }
    return [255, 255, 255];
  };
  const worst = new Map();
  for (const node of texts) {
    const element = node.parentElement;
    const [one, other] = [colour(getComputedStyle(element).color), behind(element)].map(light);
    const ratio = (Math.max(one, other) + 0.05) / (Math.min(one, other) + 0.05);
    if (ratio < 4.5) worst.set(element.className || element.tagName, ratio.toFixed(2));
  }
  for (const [name, ratio] of worst) wrong.push(`hard to read: ${name}, ${ratio} to 1`);

  // No outcome by colour alone: a sign and the word; a fill with lines; a mark over a band with something refused.
  for (const outcome of document.querySelectorAll(".outcome, .verdict h1")) {
    const said = outcome.textContent.trim();
    if (!/^(✓ passed|✕ failed|∅ empty|! error)$/.test(said)) wrong.push(`an outcome without its sign: ${said}`);
  }
  for (const band of document.querySelectorAll(".band")) {
    const fills = [...band.querySelectorAll("rect.refused")].map((rect) => getComputedStyle(rect).fill);
    if (fills.some((fill) => !fill.startsWith("url("))) wrong.push("something refused has a plain fill");
    if (fills.length > 0 && !band.querySelector(".mark")) wrong.push("something refused has no mark");
  }
  if (matchMedia("print").matches && getComputedStyle(document.body).backgroundColor !== "rgb(255, 255, 255)") {
    wrong.push("paper is not white");
  }
  if (document.querySelector("script, link, img, iframe, object")) wrong.push("the page is not whole by itself");
  return wrong;
})()
