"use strict";
// Keeps files in the browser by their SHA-256, so that a reload and the back button find them. Where the browser keeps none, they are missing.

const DATABASE = "mcsim", FILES = "files";
const MOST = 8; // files
const PATIENCE = 3000; // milliseconds

const answer_of = request => new Promise((done, fail) => {
  request.onsuccess = () => done(request.result);
  request.onerror = () => fail(request.error);
});

function opened() {
  const request = indexedDB.open(DATABASE, 1);
  request.onupgradeneeded = () => request.result.createObjectStore(FILES).createIndex("at", "at");
  return answer_of(request);
}

async function used(mode, use) {
  const database = await opened();
  try {
    return await use(database.transaction(FILES, mode).objectStore(FILES));
  } finally {
    database.close();
  }
}

// What is asked of the files, or undefined where the browser keeps nothing or does not answer.
function with_files(mode, use) {
  const late = new Promise(done => setTimeout(done, PATIENCE));
  return Promise.race([used(mode, use), late]).catch(() => undefined);
}

// Keeps a file, and forgets the oldest where there are too many.
export function remember(sha, bytes) {
  return with_files("readwrite", async files => {
    await answer_of(files.put({ at: Date.now(), bytes: new Blob([bytes]) }, sha));
    const keys = await answer_of(files.index("at").getAllKeys());
    await Promise.all(keys.slice(0, -MOST).map(key => answer_of(files.delete(key))));
  });
}

// The bytes of a file, or undefined.
export async function recall(sha) {
  const found = await with_files("readonly", files => answer_of(files.get(sha)));
  return found?.bytes.arrayBuffer().catch(() => undefined);
}
