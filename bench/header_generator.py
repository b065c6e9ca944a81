"""Writes the core header by the generator that the registry's package has: header_generator.py FOLDER INTO."""
import os
import sys
import xml.etree.ElementTree as etree

folder, into = sys.argv[1:]
sys.path.insert(0, folder)
from apiconventions import APIConventions
from cgenerator import CGeneratorOptions, COutputGenerator
from reg import Registry

options = CGeneratorOptions(
    conventions=APIConventions(), filename="vulkan_core.h", directory=into, apiname="vulkan", profile=None, versions=".*", emitversions=".*",
    defaultExtensions="vulkan", addExtensions=None, removeExtensions="^$", emitExtensions=".*", prefixText=[], protectFeature=False,
    protectProto="#ifndef", protectProtoStr="VK_NO_PROTOTYPES", apicall="VKAPI_ATTR ", apientry="VKAPI_CALL ", apientryp="VKAPI_PTR *", alignFuncParam=48)
registry = Registry(COutputGenerator(diagFile=open(os.devnull, "w")), options)
registry.loadElementTree(etree.parse(os.path.join(folder, "vk.xml")))
registry.apiGen()
