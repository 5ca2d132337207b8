(function () {
  "use strict";
  var paths = Array.prototype.slice.call(document.querySelectorAll("details.path"));
  var links = Array.prototype.slice.call(document.querySelectorAll(".counts a"));
  var none = document.querySelector(".none");
  function wanted() {
    try {
      return decodeURIComponent(location.hash.slice(1));
    } catch (error) {
      return "";
    }
  }
  function fits(path, want) {
    var ending = path.getAttribute("data-ending");
    var detail = path.getAttribute("data-exception") || path.getAttribute("data-bound");
    var signs = (path.getAttribute("data-signs") || "").split(" ");
    return !want || want === ending || want === path.id || (detail !== null && want === ending + "=" + detail) ||
      signs.indexOf(want) >= 0;
  }
  function draw(path) {
    Array.prototype.forEach.call(path.querySelectorAll("template"), function (template) {
      template.parentNode.replaceChild(template.content, template);
    });
  }
  function filter() {
    var want = wanted();
    paths.forEach(function (path) {
      path.hidden = !fits(path, want);
      if (path.id === want) {
        path.open = true;
      }
    });
    none.hidden = paths.some(function (path) {
      return !path.hidden;
    });
    links.forEach(function (link) {
      if (decodeURIComponent(link.getAttribute("href").slice(1)) === want) {
        link.setAttribute("aria-current", "true");
      } else {
        link.removeAttribute("aria-current");
      }
    });
  }
  document.addEventListener("toggle", function (event) {
    if (event.target.open) {
      draw(event.target);
    }
  }, true);
  paths.forEach(function (path) {
    if (path.open) {
      draw(path);
    }
  });
  function offer(text, open) {
    var button = document.createElement("button");
    button.type = "button";
    button.textContent = text;
    button.addEventListener("click", function () {
      paths.forEach(function (path) {
        path.open = path.hidden ? path.open : open;
      });
    });
    none.parentNode.insertBefore(button, none);
  }
  offer("open all", true);
  offer("close all", false);
  window.addEventListener("hashchange", filter);
  filter();
})();
