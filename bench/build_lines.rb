# Writes the lines that Asciidoctor keeps of a text where some attributes are set, for bench/build.sh: its reader with conditionals, and nothing that
# comes behind it.
#   ruby build_lines.rb TEXT [NAME ..]
require 'asciidoctor'

text = File.read(ARGV[0], encoding: 'UTF-8')
attributes = ARGV[1..].to_h { |name| [name, ''] }
document = Asciidoctor::Document.new([], attributes: attributes, safe: :unsafe)
reader = Asciidoctor::PreprocessorReader.new(document, text, Asciidoctor::Reader::Cursor.new(ARGV[0]), normalize: true)
puts(reader.read_lines)
