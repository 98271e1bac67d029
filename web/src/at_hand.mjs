// Registers a service worker, so that the page works without a network. If the browser has no service workers, the page needs a network.

let isAtHand = false;

// Returns whether this page opens without a network.
export function opensOffline() {
  return isAtHand;
}

// The page's Trusted Types policy allows no other worker script than worker.js.
function workerAddress() {
  const policy = globalThis.trustedTypes?.createPolicy("worker", { createScriptURL: () => "worker.js" });
  return policy === undefined ? "worker.js" : policy.createScriptURL("");
}

export async function keepPage(whenKept) {
  if (navigator.serviceWorker === undefined || !location.protocol.startsWith("http")) return;
  try {
    await navigator.serviceWorker.register(workerAddress());
    await navigator.serviceWorker.ready;
    isAtHand = true;
    whenKept();
  } catch {
    // Without the worker, the page needs a network. The view "Account" tells the member so.
  }
}
