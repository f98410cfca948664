"""The library for other targets: how its module is kept, made to fit, and linked; and engines that run it elsewhere."""
