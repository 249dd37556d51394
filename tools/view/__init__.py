"""Pictures of a trace: what `pse52 run` printed, as text, SVG, HTML, VCD or JSON for Perfetto."""
