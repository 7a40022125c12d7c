// Which day it is at the office, as far as days that are left hang on it.

import { read } from './api.js';
import { agreeWith, dayOfIso, isDayKnown, learnDay } from './dates.js';

const isDue = file => file.timing === 'near' || file.timing === 'past';

// The day of the register of deadlines: each of its lines has a deadline and the days that are left to it.
async function dayOfRegister() {
  const [, first] = (await read('/registers/deadlines')).split('\n');
  const [, , , deadline, left] = first.trim().split(/ +/);
  return left === undefined ? null : dayOfIso(deadline) - Number(left);
}

// Learns the day from files that are about to be shown, exactly where a deadline among them is near or past.
export async function learnToday(files) {
  if (files.some(isDue) && !isDayKnown()) {
    const day = await dayOfRegister();
    if (day !== null) learnDay(day);
  }
  files.forEach(agreeWith);
}
