;;;; Local files, by the system's own names: whole ones are read, and written beside their place
;;;; before they take it. A Lisp whose files have other names or versions changes this file.

(in-package :chaosnet)

(defconstant +most-file+ 1048576 "The octets of the greatest file.")

(defun native (name)
  "The pathname of a file with this very name, whatever its characters mean to Lisp."
  #+sbcl (sb-ext:parse-native-namestring name)
  #-sbcl (parse-namestring name))

(defun kind-of-file (name)
  ":FILE; nil where nothing has the name; or something else, as a folder, a link or a device."
  #+sbcl (sb-impl::native-file-kind name)
  #-sbcl (if (probe-file (native name)) :file nil))

(defun move-file (old new)
  "Gives the file OLD the name NEW; what had that is replaced, where the Lisp can at once."
  #+sbcl (unless (sb-unix:unix-rename old new) (error 'file-error :pathname (native new)))
  #-sbcl (with-open-file (stream (native new) :element-type 'octet :direction :output
                                              :if-exists :supersede)
           (write-sequence (file-octets old) stream))
  #-sbcl (delete-file (native old)))

(defun file-octets (name)
  "The octets of a file; or, of more than a file may have, the first and one more."
  (with-open-file (stream (native name) :element-type 'octet)
    (let ((octets (make-octets (1+ +most-file+))))
      (subseq octets 0 (read-sequence octets stream)))))

(defun write-file (name beside octets)
  "Makes OCTETS the content of the file NAME: they are written to the file BESIDE it first."
  (unless (member (kind-of-file name) '(nil :file)) (error 'file-error :pathname (native name)))
  (when (kind-of-file beside) (delete-file (native beside)))
  (with-open-file (stream (native beside) :element-type 'octet :direction :output)
    (write-sequence octets stream))
  (move-file beside name))
