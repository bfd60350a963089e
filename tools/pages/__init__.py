"""What the tools for people share: scripts, outputs, trees, the browser, and the page that shows them."""
