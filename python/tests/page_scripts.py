"""What is asked of the page in the browser."""

#: A row's own data, and its values as the browser reads them, percentages as the 64 bits of the number.
VALUES = """(() => {
  const view = new DataView(new ArrayBuffer(8));
  const bits = number => { view.setFloat64(0, number); return view.getBigUint64(0).toString(16).padStart(16, "0"); };
  const value = one => one.dataset.field.endsWith("percent") ? bits(JSON.parse(one.dataset.value)) : JSON.parse(one.dataset.value);
  const values = row => Object.fromEntries([...row.querySelectorAll("[data-field]")].map(one => [one.dataset.field, value(one)]));
  return [...document.querySelectorAll(%s)].map(row => [{...row.dataset}, values(row)]);
})()"""
CONTRAST = """(() => {
  const numbers = colour => colour.match(/[\\d.]+/g).map(Number);
  const part = c => (c /= 255) <= 0.03928 ? c / 12.92 : ((c + 0.055) / 1.055) ** 2.4;
  const light = ([r, g, b]) => 0.2126 * part(r) + 0.7152 * part(g) + 0.0722 * part(b);
  const ratio = (a, b) => { const [x, y] = [light(a), light(b)].sort((p, q) => q - p); return (x + 0.05) / (y + 0.05); };
  const paper = one => numbers(getComputedStyle(one).backgroundColor);
  const under = one => { while (one && paper(one).length > 3 && paper(one)[3] === 0) one = one.parentElement; return one ? paper(one) : [255, 255, 255]; };
  const probe = document.createElement("span"); document.body.append(probe);
  const bar = getComputedStyle(document.documentElement).getPropertyValue("--bar"); probe.style.color = bar;
  const barred = numbers(getComputedStyle(probe).color); probe.remove();
  let least = 99, count = 0, where = "";
  for (const one of document.querySelectorAll("body *")) {
    if (![...one.childNodes].some(node => node.nodeType === 3 && node.data.trim()) || !one.getClientRects().length || one.closest(".vh")) continue;
    const ink = numbers(getComputedStyle(one).color), papers = [under(one)];
    if (one.closest(".percent")) papers.push(barred);
    for (const behind of papers) { const found = ratio(ink, behind); count++; if (found < least) { least = found; where = one.outerHTML.slice(0, 200); } }
  }
  return [least, count, where];
})()"""

#: What a page that everyone can read has.
CHECKS = {
    "language": "document.documentElement.lang === 'en'",
    "title": "document.title.length > 0",
    "one heading of the first level": "document.querySelectorAll('h1').length === 1",
    "captions": "[...document.querySelectorAll('table')].every(one => one.caption && one.caption.textContent.trim())",
    "scopes": "[...document.querySelectorAll('th')].every(one => ['col', 'row'].includes(one.scope) && one.textContent.trim())",
    "header cells": "[...document.querySelectorAll('tbody tr:not(.note)')].every(one => one.querySelectorAll('th').length === 1)",
    "no heading is passed over": "[...document.querySelectorAll('h1,h2,h3')].map(one => +one.tagName[1])"
    ".every((level, k, all) => k === 0 || level <= all[k - 1] + 1)",
    "identifiers": "new Set([...document.querySelectorAll('[id]')].map(one => one.id)).size === document.querySelectorAll('[id]').length",
    "labels": "[...document.querySelectorAll('[aria-labelledby]')].every(one => document.getElementById(one.getAttribute('aria-labelledby')))",
    "suits in words": "[...document.querySelectorAll('i')].every(one => one.getAttribute('role') === 'img' && one.getAttribute('aria-label'))",
    "told before the first table": "[...document.querySelectorAll('[data-left-out]')]"
    ".every(one => one.compareDocumentPosition(document.querySelector('table')) & 4)",
    "names apart": "[...document.querySelectorAll('.pair:not(:empty)')].every(one => one.firstElementChild && one.firstElementChild.tagName === 'BDI')",
}

#: A script and a picture that somebody puts into the page.
MEDDLE = """{
  const script = document.createElement("script"); script.textContent = "document.title = 1"; document.body.append(script);
  const picture = document.createElement("img"); picture.src = "http://results.invalid/y"; document.body.append(picture);
}"""
