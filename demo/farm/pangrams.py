]|r3d=x}f{)y*<ot";}+w),3`f%g:6l4x~w.          
