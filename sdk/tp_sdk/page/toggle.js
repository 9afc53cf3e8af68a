// The button for dark or light. What was chosen is kept, and theme.js reads it again.

export function chooseTheme() {
  const root = document.documentElement;
  const isDark = matchMedia('(prefers-color-scheme: dark)').matches;
  root.dataset.theme = (root.dataset.theme ?? (isDark ? 'dark' : 'light')) === 'dark' ? 'light' : 'dark';
  try {
    localStorage.setItem('theme', root.dataset.theme);
  } catch {
    // (where nothing may be kept, it is chosen for this visit)
  }
}
