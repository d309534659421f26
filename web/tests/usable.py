"""What a page must have to be usable, asked of the page itself in a browser (docs/TESTING.md lists it). It stands in for axe-core."""
from __future__ import annotations

from driving import Driven

# Each fault as a text. What isn't shown is left out; a colour is held against the nearest ground that is painted.
FAULTS = r"""
const faults = [], all = chosen => [...document.querySelectorAll(chosen)];
const told = each => `<${each.tagName.toLowerCase()}> ${(each.id || each.textContent).trim().slice(0, 60)}`;
const isShown = each => each.checkVisibility({checkVisibilityCSS: true}) && !each.closest('.visually-hidden, .skip');
if (!document.documentElement.lang) faults.push('no language');
if (!document.title.trim()) faults.push('no title');
if (all('h1').length != 1) faults.push(`${all('h1').length} first headings`);
let before = 0;
for (const each of all('h1, h2, h3, h4').filter(isShown)) {
  const level = +each.tagName[1];
  if (level > before + 1 && before) faults.push(`a level of headings is left out: ${told(each)}`);
  before = level;
}
const ids = all('[id]').map(each => each.id);
for (const id of new Set(ids.filter((id, at) => ids.indexOf(id) != at))) faults.push(`two have the id ${id}`);
for (const each of all('[for], [aria-labelledby], [aria-describedby], a[href^="#"]'))
  for (const id of [each.htmlFor, each.getAttribute('aria-labelledby'), each.getAttribute('aria-describedby'), each.hash && each.hash.slice(1)])
    for (const word of (id || '').split(' ').filter(Boolean)) if (!document.getElementById(word)) faults.push(`${told(each)} names ${word}, which isn't there`);
for (const each of all('input:not([type=hidden]), button, a, summary, select, textarea')) {
  if (each.getAttribute('aria-hidden')) { if (each.tabIndex >= 0) faults.push(`hidden, and reached by the keyboard: ${told(each)}`); continue; }
  const by = (each.getAttribute('aria-labelledby') || '').split(' ').filter(Boolean).map(id => document.getElementById(id));
  const name = [each.getAttribute('aria-label'), ...by.map(one => one && one.textContent), ...[...(each.labels || [])].map(one => one.textContent), each.tagName == 'INPUT' ? '' : each.textContent];
  if (!name.some(text => text && text.trim())) faults.push(`no name: ${told(each)}`);
  if (each.tabIndex > 0) faults.push(`an order of its own: ${told(each)}`);
  const {width, height} = each.getBoundingClientRect();
  if (['INPUT', 'BUTTON', 'SUMMARY'].includes(each.tagName) && isShown(each) && Math.min(width, height) < 24) faults.push(`${width} by ${height} is too small: ${told(each)}`);
}
for (const each of all('input[type=radio], input[type=checkbox]')) {
  const legend = each.closest('fieldset') && each.closest('fieldset').querySelector('legend');
  if (!legend || !legend.textContent.trim()) faults.push(`a choice without a question: ${told(each)}`);
}
for (const each of all('table')) if (!each.querySelector('th[scope]')) faults.push('a table without headings');
for (const each of all('svg')) if (each.getAttribute('role') != 'img' || !each.querySelector('title')) faults.push('a picture without a title');
for (const each of all('img')) if (!each.alt) faults.push('a picture without a text');
for (const each of all('[aria-invalid=true]')) if (!each.closest('fieldset.wrong')) faults.push(`wrong, and no error beside it: ${told(each)}`);
const numbers = text => (text.match(/[\d.]+/g) || []).map(Number);
const light = ([r, g, b]) => [r, g, b].map(part => part / 255).map(part => part <= 0.04045 ? part / 12.92 : ((part + 0.055) / 1.055) ** 2.4).reduce((sum, part, at) => sum + part * [0.2126, 0.7152, 0.0722][at], 0);
const ground = each => { for (; each; each = each.parentElement) { const [r, g, b, a = 1] = numbers(getComputedStyle(each).backgroundColor); if (a == 1) return [r, g, b]; } return [255, 255, 255]; };
const walk = document.createTreeWalker(document.body, NodeFilter.SHOW_TEXT);
for (let text; (text = walk.nextNode());) {
  const each = text.parentElement;
  if (!text.data.trim() || !isShown(each) || each.closest('svg')) continue;
  const style = getComputedStyle(each), size = parseFloat(style.fontSize), isLarge = size >= 24 || (size >= 18.66 && style.fontWeight >= 700);
  const [high, low] = [light(numbers(style.color)), light(ground(each))].sort((one, two) => two - one);
  if ((high + 0.05) / (low + 0.05) < (isLarge ? 3 : 4.5)) faults.push(`contrast of ${((high + 0.05) / (low + 0.05)).toFixed(1)}: ${told(each)}`);
}
return faults;
"""
# Whether what has the focus shows it, and what it is.
FOCUS = """
const each = document.activeElement, style = getComputedStyle(each), box = each.getBoundingClientRect();
return [each === document.body, style.outlineStyle != 'none' && parseFloat(style.outlineWidth) >= 2, box.width > 0 && box.height > 0,
        (each.id || each.textContent).trim().slice(0, 60)];
"""


def faults(driven: Driven) -> list[str]:
    """What isn't usable on the page."""
    return list(driven.driver.execute_script(FAULTS))


def unreached(driven: Driven, most: int = 80) -> list[str]:
    """Goes through the page by the tabulator, and says which stops don't show the focus."""
    from selenium.webdriver.common.action_chains import ActionChains
    from selenium.webdriver.common.keys import Keys

    found = []
    for _ in range(most):
        ActionChains(driven.driver).send_keys(Keys.TAB).perform()
        is_over, has_outline, has_place, name = driven.driver.execute_script(FOCUS)
        if is_over:
            break
        if not has_outline or not has_place:
            found.append(name)
    return found
