/** Keeps the folder in the browser, so that the page starts without a network. `files.js`, which the build writes, says which files
 * there are and of which build. A new build comes into use when no page of the old one is open any more: files of two are never mixed. */
importScripts('files.js');

/** @type {{ build: string, files: string[] }} */
const FOLDER = self.FOLDER;
const PREFIX = `wb ${self.registration.scope} `;
const CACHE = PREFIX + FOLDER.build;

self.addEventListener('install', (event) => {
  event.waitUntil(caches.open(CACHE).then((cache) => cache.addAll(FOLDER.files.map((file) => new Request(file, { cache: 'no-cache' })))));
});

self.addEventListener('activate', (event) => {
  event.waitUntil(caches.keys().then((names) => Promise.all(
    names.filter((name) => name.startsWith(PREFIX) && name !== CACHE).map((name) => caches.delete(name)))));
});

self.addEventListener('fetch', (event) => {
  if (event.request.method !== 'GET' || !event.request.url.startsWith(self.registration.scope)) return;
  const kept = caches.open(CACHE).then((cache) => cache.match(event.request, { ignoreSearch: true }));
  event.respondWith(kept.then((answer) => answer ?? fetch(event.request)));
});
