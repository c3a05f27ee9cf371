"""hippo-c shows the answers of hippo about C programs in a terminal, an editor, a browser and a build.

Nothing here is proved. What hippo-c says about durability is an answer of `hippo`; hippo-c adds places and names."""
