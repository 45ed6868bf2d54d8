// Keeping the work in the browser's own storage, if the user asks for it.
import { byId } from './dom.mjs';

const KEY = 'netflow', DELAY = 500;

/** Calls a function of the storage, which a browser can refuse; returns null then. */
function tried(step) {
  try {
    return step();
  } catch {
    return null;
  }
}

/** Restores kept work by `show(work)`, and returns the function to call after a change; `read()` returns the work. */
export function keepWork(read, show, say) {
  const box = byId('keep'), kept = tried(() => JSON.parse(localStorage.getItem(KEY)));
  let timer;
  const write = () => {
    if (!box.checked) return;
    const isKept = tried(() => {
      localStorage.setItem(KEY, JSON.stringify(read()));
      return true;
    });
    if (!isKept) {
      box.checked = false;
      say('This browser has no room to keep the work. Save the model and the data as files.');
    }
  };
  box.addEventListener('change', () => (box.checked ? write() : tried(() => localStorage.removeItem(KEY))));
  if (kept) {
    box.checked = true;
    show(kept);
  }
  return () => {
    clearTimeout(timer);
    timer = setTimeout(write, DELAY);
  };
}
