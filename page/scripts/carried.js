// Two counties that a page carries, each file packed: tigercanon-tools writes such a page, and this page writes one to save a comparison.
import { GZIP } from "./first_line.js";
import { bytesOfBase64, unpackedBase64 } from "./jobs.js";
import { flagsOf } from "./manifests.js";
import { counted } from "./numbers.js";

const LARGEST_PAGE = 60_000_000;

let [emptyPage, emptyBlock] = ["", ""];

// Takes out what the page carries, if anything, and keeps the text of the page without it. The page must be as it was loaded.
export function takeCarried() {
  const block = document.getElementById("counties");
  const text = block.textContent.trim();
  block.textContent = "";
  emptyBlock = block.outerHTML;
  emptyPage = `<!DOCTYPE html>\n${document.documentElement.outerHTML}\n`;
  return text ? JSON.parse(text) : undefined;
}

// The counties, as if their files had been dropped, and the masks. Files stay packed until they are read; a zip is read by its parts.
export async function unpackCarried({ counties, masks }) {
  const both = counties.map(async ({ name, files }) => {
    const given = {};
    for (const { kind, name: file, gzip } of files) {
      given[kind] = kind === "zip" ? new File([await unpackedBase64(gzip)], file) : new File([bytesOfBase64(gzip)], file, { type: GZIP });
    }
    const { whole, zip, ...singles } = given;
    return { stem: name, notes: [], ...(whole ? { whole } : zip ? { zip } : { files: singles }) };
  });
  return { counties: await Promise.all(both), masks: { sources: masks.includes("--no-sources"), reserved: masks.includes("--no-reserved") } };
}

// The page with these counties in it.
export async function pageWith(counties, fingerprints, masks) {
  const packed = [];
  for (const { stem, whole, zip, files } of counties) {
    const given = Object.entries({ ...files, ...(whole && { whole }), ...(zip && { zip }) });
    const all = given.map(async ([kind, file]) => ({ kind, name: file.name, gzip: await packedBase64(file) }));
    packed.push({ name: stem, files: await Promise.all(all) });
  }
  // JSON in which no letter begins a tag.
  const text = JSON.stringify({ fingerprints, masks: flagsOf(masks), counties: packed }).replace(/</g, "\\u003c");
  const size = emptyPage.length + text.length;
  if (size > LARGEST_PAGE) throw new Error(`The page would have ${counted(size)} bytes, more than ${counted(LARGEST_PAGE)}. Save the differences as GeoJSON.`);
  return new Blob([emptyPage.replace(emptyBlock, () => emptyBlock.replace("><", () => `>${text}<`))], { type: "text/html" });
}

async function packedBase64(file) {
  const packed = file.type === GZIP ? file : await new Response(file.stream().pipeThrough(new CompressionStream("gzip"))).blob();
  const reader = new FileReader();
  await new Promise((resolve, reject) => Object.assign(reader, { onload: resolve, onerror: () => reject(reader.error) }).readAsDataURL(packed));
  return reader.result.slice(reader.result.indexOf(",") + 1);
}
