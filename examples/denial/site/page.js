// Says which host was asked for. It is set as text, so that no address can put anything else into the page.
const host = new URLSearchParams(location.search).get("host");
if (host) document.getElementById("host").textContent = host;
