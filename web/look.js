// Light or dark: as the system has it, or as it is chosen. The choice isn't stored.

/** Keeps the page's look as the choice says; calls `onChange` after each change.
    @param {HTMLSelectElement} choice @param {() => void} onChange */
export function keepLook(choice, onChange) {
  const system = matchMedia("(prefers-color-scheme: dark)");
  const apply = () => {
    const look = choice.value === "auto" ? (system.matches ? "dark" : "light") : choice.value;
    document.documentElement.dataset.look = look;
    onChange();
  };
  choice.addEventListener("change", apply);
  system.addEventListener("change", apply);
  apply();
}
