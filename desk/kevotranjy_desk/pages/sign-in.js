"use strict";
const element = (id) => document.getElementById(id);
element("form").addEventListener("submit", async (event) => {
  event.preventDefault();
  const asked = { name: element("name").value.trim(), password: element("password").value, code: element("code").value };
  element("reply").textContent = "";
  try {
    const headers = { "Content-Type": "application/json" };
    const answer = await fetch("/sign-in", { method: "POST", headers, body: JSON.stringify(asked) });
    if (answer.ok) location.replace("/");
    else element("reply").textContent = (await answer.json()).words;
  } catch {
    element("reply").textContent = "The desk does not answer.";
  }
});
