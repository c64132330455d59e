// Pictures of `draw` in a page.

// How wide a picture is at least and at most, in pixels.
export const [LEAST_WIDTH, MOST_WIDTH] = [120, 100_000];
// A longer score is not drawn in a page: a picture of it would be slow to show.
export const MOST_DRAWN = 50_000;

export const SVG_TYPE = "image/svg+xml";
// What a picture has to stand alone, and a page has by itself.
const NOT_SHOWN = "metadata, .paper";
// The policy of a page may refuse a style even before it is taken out.
const STYLE = /<style>[^<]*<\/style>/;

/** Returns the picture with this text as an element for a page, without its style and its paper. */
export function elementOf(svg) {
  const picture = new DOMParser().parseFromString(svg.replace(STYLE, ""), SVG_TYPE).documentElement;
  for (const it of picture.querySelectorAll(NOT_SHOWN)) it.remove();
  return document.importNode(picture, true);
}
