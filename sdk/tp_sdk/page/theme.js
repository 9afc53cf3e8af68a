// Dark or light, as was chosen before, or as the system has it. Run before anything is drawn.
(() => {
  const kept = () => { try { return localStorage.getItem('theme'); } catch { return null; } };
  const theme = kept();
  if (theme === 'dark' || theme === 'light') document.documentElement.dataset.theme = theme;
})();
