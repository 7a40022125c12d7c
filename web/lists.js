// Lists of files. Each visit reads them anew; what was read serves the browser's Back button alone, until something is
// changed from here.

import { read } from './api.js';
import { token } from './session.js';
import { store } from './store.js';
import { learnToday } from './today.js';

const KEPT = 600_000; // Milliseconds.

const pathOf = stage => (stage === null ? '/files' : `/files/stage/${stage}`);

// The files that the caller may list: all of them, or those in a stage. What comes for somebody who has signed out
// meanwhile isn't kept.
export async function listed(stage = null) {
  const path = pathOf(stage);
  const kept = store.lists.get(path);
  if (store.isBack && kept !== undefined && Date.now() - kept.at < KEPT) return kept.files;
  const mine = token();
  const at = Date.now();
  const { files } = await read(path);
  await learnToday(files);
  if (token() === mine) store.lists.set(path, { files, at });
  return files;
}

export async function listedIn(stages) {
  const lists = await Promise.all(stages.map(stage => listed(stage)));
  return lists.flat();
}

// When a list was read, in milliseconds.
export const readAt = (stage = null) => store.lists.get(pathOf(stage))?.at ?? Date.now();
