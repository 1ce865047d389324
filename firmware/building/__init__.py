"""Builds images. An image is built again only if something that it depends on has changed."""
