"use strict";
// The token is behind the #: no server, log or Referer has it. It goes into its field, and out of the address.
function take() {
  const token = location.hash.slice(1);
  if (!token) return;
  history.replaceState(null, "", location.pathname);
  document.getElementById("token").value = token;
  document.getElementById("initials").focus();
}
addEventListener("hashchange", take);
take();
