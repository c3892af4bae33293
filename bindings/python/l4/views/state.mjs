// What the page shows now, and the questions about it.
import { it } from "./dom.mjs";

/** The run that is shown, the place in it (null is the end), and the page that was chosen. */
export const shown = { script: null, frames: 256, pageBytes: 4096, at: null, space: 0, page: null, first: 0, isFollowing: true, isSameRun: false, colour: "frame", view: null };

/** The number in a field; not a number, if there is another text in it. */
export const number = (id) => (/^ *[0-9]+ *$/.test(it(id).value) ? Number(it(id).value) : NaN);

/** The script and the machine of the fields. */
export const fields = () => ({ script: it("script").value, frames: number("frames"), pageBytes: number("page-bytes") });

/** The question about the run that is shown. */
export const question = () => ({ script: shown.script, frames: shown.frames, pageBytes: shown.pageBytes, at: shown.at });

/** The page that the view opens on: that of its step, or else the first page of a space beside sigma0's. */
export function openingOf({ focus, spaces }) {
  if (focus) return focus;
  const found = spaces.find(({ space, runs }) => space !== 0 && runs.length);
  return { space: found?.space ?? 0, page: found?.runs[0][0] ?? null };
}

export const isEdited = () => {
  const { script, frames, pageBytes } = fields();
  return script !== shown.script || frames !== shown.frames || pageBytes !== shown.pageBytes;
};
