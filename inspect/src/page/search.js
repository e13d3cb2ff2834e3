// The search looks through the index; without scripts the index is there to be read.
(function () {
  "use strict";
  var most = 40;
  var names = Array.prototype.slice.call(document.querySelectorAll("#names > li"));
  var box = document.createElement("input");
  box.type = "search";
  box.placeholder = "Find a name";
  box.setAttribute("aria-label", "Find a name");
  var found = document.createElement("ul");
  found.className = "found";
  found.hidden = true;
  document.getElementById("search").append(box, found);

  function name(item) {
    return item.querySelector("code").textContent.toLowerCase();
  }

  // whole names first, then beginnings, then what has the words somewhere
  function rank(item, words) {
    var text = name(item);
    return text === words ? 0 : text.startsWith(words) ? 1 : text.includes(words) ? 2 : 3;
  }

  function look() {
    var words = box.value.trim().toLowerCase();
    var fits = words ? names.filter(function (item) { return rank(item, words) < 3; }) : [];
    fits.sort(function (a, b) { return rank(a, words) - rank(b, words); });
    found.replaceChildren.apply(found, fits.slice(0, most).map(function (item) {
      var copy = item.cloneNode(true);
      copy.removeAttribute("id");
      return copy;
    }));
    if (words && !fits.length) {
      found.textContent = "no such name";
    }
    found.hidden = !words;
  }

  box.addEventListener("input", look);
  box.addEventListener("keydown", function (event) {
    var first = found.querySelector("a");
    if (event.key === "Enter" && first) {
      first.click();
    } else if (event.key === "Escape") {
      box.value = "";
      look();
    }
  });
  found.addEventListener("click", function (event) {
    if (event.target.closest("a")) {
      found.hidden = true;
    }
  });
  document.addEventListener("keydown", function (event) {
    if (event.key === "/" && document.activeElement !== box) {
      event.preventDefault();
      box.focus();
    }
  });
})();
