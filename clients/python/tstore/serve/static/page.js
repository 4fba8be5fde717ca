// What is nicer with a script: nothing here is needed.
"use strict";

// Ctrl and Enter asks, and the box is as high as its query.
for (const box of document.querySelectorAll("textarea")) {
  const fit = () => {
    box.rows = Math.min(30, Math.max(9, box.value.split("\n").length + 1));
  };
  box.addEventListener("input", fit);
  box.addEventListener("keydown", (event) => {
    if (event.key === "Enter" && (event.ctrlKey || event.metaKey)) {
      event.preventDefault();
      box.form.requestSubmit();
    }
  });
  fit();
}

// A form leaves out of its address what is empty.
for (const form of document.querySelectorAll("form.pattern")) {
  form.addEventListener("submit", () => {
    for (const field of form.querySelectorAll("input")) {
      field.disabled = field.value.trim() === "";
    }
  });
}
