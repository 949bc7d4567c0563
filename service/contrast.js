// The texts of the page whose contrast is below 4.5, each with its contrast, but for buttons that can't be pressed.
const numbers = (colour) => (colour.match(/[\d.]+/g) || []).map(Number);
const over = ([r, g, b, a = 1], under) => [r, g, b].map((part, at) => a * part + (1 - a) * under[at]);
function ground(element) {
  const layers = [];
  for (let of = element; of; of = of.parentElement) layers.unshift(numbers(getComputedStyle(of).backgroundColor));
  return layers.reduce((under, layer) => over(layer, under), [255, 255, 255]);
}
const light = (colour) => colour.map((part) => part / 255).map((part) => (part <= 0.04045 ? part / 12.92 :
  ((part + 0.055) / 1.055) ** 2.4)).reduce((sum, part, at) => sum + part * [0.2126, 0.7152, 0.0722][at], 0);
function contrast(element) {
  const under = ground(element);
  let opacity = 1;
  for (let of = element; of; of = of.parentElement) opacity *= Number(getComputedStyle(of).opacity);
  const [r, g, b] = numbers(getComputedStyle(element).color), ink = over([r, g, b, opacity], under);
  const [low, high] = [light(ink), light(under)].sort((x, y) => x - y);
  return (high + 0.05) / (low + 0.05);
}
const found = [], walker = document.createTreeWalker(document.body, NodeFilter.SHOW_TEXT);
for (let node = walker.nextNode(); node; node = walker.nextNode()) {
  const of = node.parentElement;
  if (!node.data.trim() || !of.checkVisibility() || of.closest('button:disabled, script, style, noscript')) continue;
  if (contrast(of) < 4.5) found.push(`${node.data.trim().slice(0, 30)} ${contrast(of).toFixed(2)}`);
}
return [...new Set(found)];
