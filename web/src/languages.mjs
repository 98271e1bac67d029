// The page's language. Until the user chooses a language, the page uses the first language in the browser's list that the page supports.

/* global WORDS */
import { byName, element } from "./elements.mjs";
import { language, languageFor, languages, say, useWords } from "./words.mjs";

// Lets the user choose a language, and calls `sayPage` to show the page in the current language. The page begins with the language `before`, or with
// the browser's language if `before` is null. The function calls `keep` with each language that the user chooses.
export function offerLanguages(sayPage, before = null, keep = () => {}) {
  useWords(WORDS, "en");
  const field = byName("language");
  field.append(...languages().map((each) => {
    useWords(WORDS, each);
    return Object.assign(element("option", "", say("language-name")), { value: each, lang: each });
  }));
  const speak = (chosen) => {
    useWords(WORDS, chosen);
    document.documentElement.lang = language();
    field.value = language();
    sayPage();
  };
  field.addEventListener("change", () => {
    keep(field.value);
    speak(field.value);
  });
  speak(before ?? languageFor(navigator.languages));
}
