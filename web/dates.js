// Days as the office counts them, from 1970-01-01, and the office's own day.

import { NEAR } from './rules.js';
import { store } from './store.js';

const MILLISECONDS = 86_400_000;
const dateFormat = new Intl.DateTimeFormat(undefined, { dateStyle: 'medium', timeZone: 'UTC' });

// A date as the browser writes it.
export const dateText = day => dateFormat.format(day * MILLISECONDS);

export const isoDate = day => new Date(day * MILLISECONDS).toISOString().slice(0, 10);

export const dayOfIso = text => Date.parse(text) / MILLISECONDS;

function browserDay() {
  const now = new Date();
  return Date.UTC(now.getFullYear(), now.getMonth(), now.getDate()) / MILLISECONDS;
}

// No route says the office's day, but answers have it beside what they are for.
export const today = () => browserDay() + store.day.ahead;

// Takes over the day of an answer.
export function learnDay(day) {
  store.day = { ahead: day - browserDay(), learned: Date.now() };
}

const HOUR = 3_600_000;

export const isDayKnown = () => Date.now() - store.day.learned < HOUR;

// Takes over the nearest day on which a file, as the office showed it, can have its timing.
export function agreeWith({ deadline, filed, timing }) {
  let day = Math.max(today(), filed);
  if (timing === 'past') day = Math.max(day, deadline + 1);
  if (timing === 'near') day = Math.min(Math.max(day, deadline - NEAR), deadline);
  if (timing === 'ahead') day = Math.min(day, deadline - NEAR - 1);
  store.day.ahead = day - browserDay();
}

const days = count => `${count} ${count === 1 ? 'day' : 'days'}`;

// How a deadline stands, in words: past and near are words of their own.
export function leftText(file) {
  if (file.timing === 'none') return 'no deadline';
  const left = file.deadline - today();
  if (file.timing === 'past') return `past by ${days(-left)}`;
  if (left === 0) return 'near: today is the last day';
  return file.timing === 'near' ? `near: ${days(left)} left` : `${days(left)} left`;
}
